"""Session tokens: a server gives one to a client, which cannot read or change it; the server accepts it until it
expires.

A token is URL-safe base64 of a key's id (4 bytes), a nonce (32), and the encrypted payload with its tag. The id is
associated data too. With it keys can be changed: the newest key encrypts, and older ones decrypt until they are
dropped. A stolen token is valid until it expires: only dropping its key revokes it.

    session_token.py [KEYFILE]      KEYFILE has 32 random bytes. Without it the key is random.
"""

import base64
import json
import pathlib
import sys
import time
from typing import Any, Optional

from hunkravy import Aegis256, InvalidTag

ID_BYTES = 4
PURPOSE = b"session token, version 1"


class InvalidToken(Exception):
    """The token is too old, was altered, or was issued under an unknown key."""


class Tokens:
    """The keys by their ids, the last of which encrypts. An id is 4 bytes, and is never used for another key."""

    def __init__(self, keys: dict[bytes, bytes]) -> None:
        self._ciphers = {key_id: Aegis256(key) for key_id, key in keys.items()}
        self._newest = list(keys)[-1]

    def issue(self, payload: Any, seconds: float, now: Optional[float] = None) -> str:
        """Returns the token of a payload that JSON can hold, which expires after so many seconds."""
        until = (time.time() if now is None else now) + seconds
        text = json.dumps({"until": until, "payload": payload}).encode()
        nonce = Aegis256.generate_nonce()
        ciphertext = self._ciphers[self._newest].encrypt(nonce, text, PURPOSE + self._newest)
        return base64.urlsafe_b64encode(self._newest + nonce + ciphertext).rstrip(b"=").decode()

    def read(self, token: str, now: Optional[float] = None) -> Any:
        """Returns the payload of a token, or raises `InvalidToken`."""
        data = decoded(token)
        key_id, rest = data[:ID_BYTES], data[ID_BYTES:]
        cipher = self._ciphers.get(key_id)
        if cipher is None or len(rest) < cipher.NONCE_BYTES:
            raise InvalidToken
        nonce, ciphertext = rest[: cipher.NONCE_BYTES], rest[cipher.NONCE_BYTES :]
        try:
            content = json.loads(cipher.decrypt(nonce, ciphertext, PURPOSE + key_id))
        except InvalidTag:
            raise InvalidToken from None
        # A time that is not a number is late too.
        if not (time.time() if now is None else now) < content["until"]:
            raise InvalidToken
        return content["payload"]


def decoded(token: str) -> bytes:
    """The bytes of a token, if it is what `issue` writes for them."""
    try:
        data = base64.b64decode(token + "=" * (-len(token) % 4), altchars=b"-_", validate=True)
    except ValueError:
        raise InvalidToken from None
    if base64.urlsafe_b64encode(data).rstrip(b"=") != token.encode():
        raise InvalidToken
    return data


if __name__ == "__main__":
    first = pathlib.Path(sys.argv[1]).read_bytes() if len(sys.argv) > 1 else Aegis256.generate_key()
    token = Tokens({b"2026": first}).issue({"user": "ada"}, seconds=3600)
    # Later there is a newer key, and the older one still decrypts.
    tokens = Tokens({b"2026": first, b"2027": Aegis256.generate_key()})
    assert tokens.read(token) == {"user": "ada"}
    print(token)
