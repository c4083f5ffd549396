# Plans a plant by several processes on one machine: rounds of `resume`, each process at a share of what is open, and `merge`.
#
#   make -j 4 -f examples/spread.mk PLANT=examples/kondili.toml SHARES=4 ROUNDS=10 BUDGET=100
#
# BUDGET is that of the first log; each share has three times as many boxes in the first round, and three times those of the round before
# in each later one, 100000 at most. The rounds end early where the plant is settled. OUT gets the log of each round (log.0, log.1 ..), what
# was said of it (said.0, said.1 ..), and the last plan (plan).
PLANT ?= examples/five.toml
SHARES ?= 4
ROUNDS ?= 10
BUDGET ?= 100
OUT ?= $(basename $(notdir $(PLANT)))-$(SHARES)-$(ROUNDS)-$(BUDGET)
STN ?= ./stn

NUMBERS := $(shell seq 0 $$(($(SHARES) - 1)))

# The boxes of each share in round $(1).
BOXES = $(shell awk 'BEGIN { boxes = $(BUDGET) * 3 ^ $(1); print (boxes < 100000 ? boxes : 100000) }')

# What a run ends with that leaves a whole log: settled, infeasible, or spent.
WELL = case $$? in 0|1|6) ;; *) exit 1 ;; esac
# Whether the log of round $(1) leaves nothing open.
SETTLED = grep -Eq '^(\#|merged) (optimal|infeasible)' $(OUT)/said.$(1)

$(OUT)/plan: $(OUT)/log.$(ROUNDS)
	$(STN) plan $(PLANT) $< > $@
	head -n 1 $@

$(OUT)/log.0: $(PLANT) | $(OUT)
	$(STN) solve $(PLANT) $(BUDGET) $@ > $(OUT)/said.0; $(WELL)

$(OUT):
	mkdir -p $@

# Round $(1) goes on from round $(2).
define ROUND
$(OUT)/$(1).%: $(OUT)/log.$(2)
	if $(call SETTLED,$(2)); then ln -f $$< $$@; else $(STN) resume $(PLANT) $$< $(call BOXES,$(1)) $$@ $$* $(SHARES) > $$@.said; $$(WELL); fi

$(OUT)/log.$(1): $(NUMBERS:%=$(OUT)/$(1).%)
	if $(call SETTLED,$(2)); then ln -f $(OUT)/log.$(2) $$@; cp $(OUT)/said.$(2) $(OUT)/said.$(1); \
	else $(STN) merge $(PLANT) $(OUT)/$(1) $(SHARES) $$@ > $(OUT)/said.$(1) && cat $(OUT)/said.$(1); fi
	rm -f $(NUMBERS:%=$(OUT)/$(1).%) $(NUMBERS:%=$(OUT)/$(1).%.said)
endef
$(foreach round,$(shell seq 1 $(ROUNDS)),$(eval $(call ROUND,$(round),$(shell echo $$(($(round) - 1))))))

.INTERMEDIATE: $(foreach round,$(shell seq 1 $(ROUNDS)),$(NUMBERS:%=$(OUT)/$(round).%))
.DELETE_ON_ERROR:
