"""Models: they assign a probability to each symbol.

To a coder a model is a list of **weights**, one for each symbol of a range. The weights add up to 2^24. A symbol can be
encoded if its weight is at least 1. Encoding and decoding have to use equal weights.

:class:`QuantizedGaussian`, :class:`QuantizedLaplace`, :class:`QuantizedLogistic`, mixtures of these
(:class:`QuantizedMixture`) and :class:`Categorical` round each float once, to a whole number. C functions then compute
the weights in whole numbers alone, and these functions are proved. So equal floats give equal words on every machine.
:class:`Bernoulli` and :class:`Uniform` compute one sum in whole numbers, in Python. :class:`WeightTable` takes the
weights themselves.

:class:`QuantizedCauchy`, :class:`Binomial`, :class:`CustomModel` and :class:`ScipyModel` compute weights in floats, in
Python. This computation isn't proved. The coders are proved for whatever weights they get. Encoder and decoder have to
compute these floats alike.

A model with all its parameters is used as it is: ``coder.encode_reverse(symbols, model)`` and ``coder.decode(model,
amt)``. A model with missing parameters needs a list of each, with one value for each symbol:
``coder.encode_reverse(symbols, model, means, stds)`` and ``coder.decode(model, means, stds)``.
"""

from ._base import Model
from ._cauchy import QuantizedCauchy
from ._custom import CustomModel, ScipyModel
from ._finite import Bernoulli, Binomial, Uniform
from ._mixture import QuantizedMixture
from ._quantized import QuantizedGaussian, QuantizedLaplace, QuantizedLogistic
from ._table import Categorical, WeightTable

__all__ = [
    "Bernoulli",
    "Binomial",
    "Categorical",
    "CustomModel",
    "Model",
    "QuantizedCauchy",
    "QuantizedGaussian",
    "QuantizedLaplace",
    "QuantizedLogistic",
    "QuantizedMixture",
    "ScipyModel",
    "Uniform",
    "WeightTable",
]
