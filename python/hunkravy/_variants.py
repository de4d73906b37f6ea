"""The six variants: what their ciphers and their MACs share."""

from __future__ import annotations

from typing import ClassVar, NoReturn, Optional, SupportsIndex

NAMES = ("aegis-128l", "aegis-128x2", "aegis-128x4", "aegis-256", "aegis-256x2", "aegis-256x4")


class Variant:
    """The lengths of keys and nonces in bytes, the variant's name, and its number in the library."""

    __slots__ = ()
    KEY_BYTES: ClassVar[int]
    NONCE_BYTES: ClassVar[int]
    name: ClassVar[str]
    # That of no variant, for which the native module raises `TypeError`.
    _VARIANT: ClassVar[int] = len(NAMES)

    def __init_subclass__(cls, variant: Optional[int] = None, **others: object) -> None:
        super().__init_subclass__(**others)
        if variant is not None:
            cls._VARIANT, cls.name = variant, NAMES[variant]
            cls.KEY_BYTES = cls.NONCE_BYTES = 16 if variant < 3 else 32


class Secret:
    """An object that is neither copied nor pickled: each is a `TypeError`."""

    __slots__ = ()

    def __reduce_ex__(self, protocol: SupportsIndex) -> NoReturn:
        raise TypeError(f"{type(self).__name__} objects hold a secret, and cannot be copied or pickled")

    def __getstate__(self) -> NoReturn:
        self.__reduce_ex__(0)
