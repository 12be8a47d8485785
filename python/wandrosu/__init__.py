"""Wandrosu from Python: exact fermionic tensor networks as a reference for codes that compute in floats.

Documents are made from arrays, the program ``qntn`` is run, and its answers come back as objects:

>>> sites = ["fermion"] * 2
>>> hop = OperatorSum(sites, [(-1, "Cdag", 1, "C", 2), (-1, "Cdag", 2, "C", 1)])
>>> print(expect(ProductState(sites, [1, 0]), hop, ProductState(sites, [0, 1])))
-1

See the package's README.md, and docs/FORMAT.md for the documents.
"""

from .combiners import Combiner
from .comparison import Comparison, compare
from .errors import (
    ArrayFault,
    IOFault,
    Malformed,
    NotWhole,
    OffFlux,
    OutOfMemory,
    Passed,
    ProgramDied,
    ProgramNotFound,
    Refused,
    UsageFault,
    WandrosuError,
    WrongShape,
)
from .gaussian import Gaussian
from .groups import U1, Factor, Group, Zn
from .legs import Leg
from .networks import Network
from .plans import Plan, Step
from .program import find_program, run
from .states import (
    ProductState,
    Scalar,
    State,
    expect,
    expectation_network,
    overlap,
    overlap_network,
    save_states,
    states_document,
)
from .sums import OperatorSum, Site
from .tensors import Tensor

__version__ = "1.0.0"

__all__ = [
    "ArrayFault",
    "Combiner",
    "Comparison",
    "Factor",
    "Gaussian",
    "Group",
    "IOFault",
    "Leg",
    "Malformed",
    "Network",
    "NotWhole",
    "OffFlux",
    "OperatorSum",
    "OutOfMemory",
    "Passed",
    "Plan",
    "ProductState",
    "ProgramDied",
    "ProgramNotFound",
    "Refused",
    "Scalar",
    "Site",
    "State",
    "Step",
    "Tensor",
    "U1",
    "UsageFault",
    "WandrosuError",
    "WrongShape",
    "Zn",
    "compare",
    "expect",
    "expectation_network",
    "find_program",
    "overlap",
    "overlap_network",
    "run",
    "save_states",
    "states_document",
]
