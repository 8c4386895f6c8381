# SPDX-License-Identifier: MIT OR Apache-2.0
"""The logger `roskevad`. `logging` is imported no sooner than somebody listens or a callback fails: that takes a tenth of the time
that the import of the package takes."""
import sys
from typing import TYPE_CHECKING, Optional

if TYPE_CHECKING:
    from logging import Logger

_NAME = 'roskevad'


def _heard() -> 'Optional[Logger]':
    """The logger; `None` where nobody has imported `logging`, so that nobody listens."""
    if 'logging' not in sys.modules:
        return None
    import logging

    return logging.getLogger(_NAME)


def debug(text: str, *words: object) -> None:
    """Tells at the level DEBUG."""
    logger = _heard()
    if logger is not None:
        logger.debug(text, *words, stacklevel=2)


def hears_debug() -> bool:
    """Whether anybody listens at the level DEBUG."""
    logger = _heard()
    return logger is not None and logger.isEnabledFor(10)


def info(text: str, *words: object) -> None:
    """Tells at the level INFO."""
    logger = _heard()
    if logger is not None:
        logger.info(text, *words, stacklevel=2)


def exception(text: str) -> None:
    """Tells at the level ERROR, with the exception that is handled."""
    import logging

    logging.getLogger(_NAME).exception(text, stacklevel=2)
