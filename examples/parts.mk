# Plans a plant in parts, each by a run of its own, and joins their logs to one log of the plant.
#
#   make -j 4 -f examples/parts.mk PLANT=examples/kondili.toml LEVELS=2 BUDGET=1000
#
# BUDGET is that of each part. OUT gets the log of each part (part.0, part.1 ..), what was said of it (said.0 ..), and joined.log.
PLANT ?= examples/five.toml
LEVELS ?= 2
BUDGET ?= 1000
OUT ?= $(basename $(notdir $(PLANT)))-$(LEVELS)-$(BUDGET)
STN ?= ./stn

LOGS := $(addprefix $(OUT)/part.,$(shell seq 0 $$(((1 << $(LEVELS)) - 1))))

$(OUT)/joined.log: $(LOGS)
	$(STN) join $(PLANT) $(LEVELS) $(OUT)/part $@
	$(STN) check $(PLANT) $@

# Status 1 says that no plan of the part is feasible, and 6 that its budget was spent: both leave a whole log.
$(OUT)/part.%: $(PLANT) | $(OUT)
	$(STN) solve-part $(PLANT) $(LEVELS) $* $(BUDGET) $@ > $(OUT)/said.$*; case $$? in 0|1|6) ;; *) exit 1 ;; esac

$(OUT):
	mkdir -p $@

.DELETE_ON_ERROR:
