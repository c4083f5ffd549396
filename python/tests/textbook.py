"""The first example of Kondili, Pantelides and Sargent (1993) as the dictionary of notebooks: kilograms, hours, money for a kilogram."""
from stn_plant import Grid


def unit_task(most):
    return {"Bmin": 0, "Bmax": most, "Cost": 0, "vCost": 0, "Tclean": 0}


KONDILI = {
    "TIME": range(0, 11),
    "STATES": {
        "FeedA": {"capacity": 500, "initial": 500, "price": 0},
        "FeedB": {"capacity": 500, "initial": 500, "price": 0},
        "FeedC": {"capacity": 500, "initial": 500, "price": 0},
        "HotA": {"capacity": 100, "initial": 0, "price": -1},
        "IntAB": {"capacity": 200, "initial": 0, "price": -1},
        "IntBC": {"capacity": 150, "initial": 0, "price": -1},
        "ImpureE": {"capacity": 100, "initial": 0, "price": -1},
        "Prod1": {"capacity": 500, "initial": 0, "price": 10},
        "Prod2": {"capacity": 500, "initial": 0, "price": 10},
    },
    "ST_ARCS": {
        ("FeedA", "Heating"): {"rho": 1.0},
        ("FeedB", "Reaction1"): {"rho": 0.5},
        ("FeedC", "Reaction1"): {"rho": 0.5},
        ("FeedC", "Reaction3"): {"rho": 0.2},
        ("HotA", "Reaction2"): {"rho": 0.4},
        ("IntAB", "Reaction3"): {"rho": 0.8},
        ("IntBC", "Reaction2"): {"rho": 0.6},
        ("ImpureE", "Separation"): {"rho": 1.0},
    },
    "TS_ARCS": {
        ("Heating", "HotA"): {"dur": 1, "rho": 1.0},
        ("Reaction2", "Prod1"): {"dur": 2, "rho": 0.4},
        ("Reaction2", "IntAB"): {"dur": 2, "rho": 0.6},
        ("Reaction1", "IntBC"): {"dur": 2, "rho": 1.0},
        ("Reaction3", "ImpureE"): {"dur": 1, "rho": 1.0},
        ("Separation", "Prod2"): {"dur": 1, "rho": 0.9},
        ("Separation", "IntAB"): {"dur": 2, "rho": 0.1},
    },
    "UNIT_TASKS": {
        ("Heater", "Heating"): unit_task(100),
        ("Reactor1", "Reaction1"): unit_task(80),
        ("Reactor2", "Reaction1"): unit_task(50),
        ("Reactor1", "Reaction2"): unit_task(80),
        ("Reactor2", "Reaction2"): unit_task(50),
        ("Reactor1", "Reaction3"): unit_task(80),
        ("Reactor2", "Reaction3"): unit_task(50),
        ("Still", "Separation"): unit_task(200),
    },
}

# Batches in steps of half a kilogram; but half of a batch of the first reaction, and a tenth of one of the still, are whole tenths too.
HALF_A_KILOGRAM = Grid(mass="0.1", money="0.1", batch="0.5", batches={"Reaction1": "0.4", "Separation": 1})
