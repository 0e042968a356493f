"""The Python classes of the families of distributions, by the table of tools/distributions.py."""

from __future__ import annotations

from typing import Any

import definitions_of_models as models
from constriction.stream import model

#: The class of each family, by the family's name.
KINDS: dict[str, Any] = {name: getattr(model, f"Quantized{models.type_of(name)}") for name in models.FAMILIES}
#: The name of each family's scale.
SCALES: dict[str, str] = {name: models.scale_name(name) for name in models.FAMILIES}
