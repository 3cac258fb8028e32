"""Keys of members, and the signatures that a host has seen."""
import hashlib
import hmac
import json
import os
from typing import Any, Dict, Iterable, List, Optional, Tuple


try:
    from cryptography.exceptions import InvalidSignature
    from cryptography.hazmat.primitives import serialization
    from cryptography.hazmat.primitives.asymmetric import ed25519
except ImportError:
    ed25519 = None  # then all share one key, which shows the way and protects from nobody

SIZE = 64


def secret(seed: Optional[str], member: int) -> bytes:
    """Bytes for a key: at random, or by a seed, for runs that are to be the same."""
    if seed is None:
        return os.urandom(32)
    return hashlib.sha256(("%s %d" % (seed, member)).encode()).digest()


def new_keys(members: int, seed: Optional[str] = None) -> List[Dict[str, Any]]:
    """For each member what its host is given: its own key, and what tests those of all."""
    if ed25519 is None:
        shared = secret(seed, members).hex()
        return [{"kind": "shared", "own": shared, "public": []} for _ in range(members)]
    of = ed25519.Ed25519PrivateKey.from_private_bytes
    own = [of(secret(seed, one)) for one in range(members)]
    raw = serialization.Encoding.Raw, serialization.PublicFormat.Raw
    public = [key.public_key().public_bytes(*raw).hex() for key in own]
    return [{"kind": "ed25519", "own": secret_of(key), "public": public} for key in own]


def secret_of(key: "ed25519.Ed25519PrivateKey") -> str:
    return key.private_bytes(serialization.Encoding.Raw, serialization.PrivateFormat.Raw,
                             serialization.NoEncryption()).hex()


def write_keys(path: str, keys: Dict[str, Any]) -> None:
    """Writes what a host is given, for its own user alone."""
    handle = os.open(path, os.O_WRONLY | os.O_CREAT | os.O_TRUNC, 0o600)
    with os.fdopen(handle, "w", encoding="ascii") as file:
        json.dump(keys, file)


def read_keys(path: str, member: int) -> "Keys":
    with open(path, encoding="ascii") as file:
        return keys_of(json.load(file), member)


def keys_of(given: Dict[str, Any], member: int) -> "Keys":
    return SharedKeys(given, member) if given["kind"] == "shared" else PairKeys(given)


class Keys:
    """A member's own key, and what tests the signatures of all."""

    kind = ""

    def sign(self, text: bytes) -> bytes:
        raise NotImplementedError

    def is_right(self, member: int, text: bytes, signature: bytes) -> bool:
        raise NotImplementedError


class PairKeys(Keys):
    """Ed25519."""

    kind = "ed25519"

    def __init__(self, given: Dict[str, Any]):
        self.own = ed25519.Ed25519PrivateKey.from_private_bytes(bytes.fromhex(given["own"]))
        self.public = [ed25519.Ed25519PublicKey.from_public_bytes(bytes.fromhex(one))
                       for one in given["public"]]

    def sign(self, text: bytes) -> bytes:
        return self.own.sign(text)

    def is_right(self, member: int, text: bytes, signature: bytes) -> bool:
        if member >= len(self.public):
            return False
        try:
            self.public[member].verify(signature, text)
        except InvalidSignature:
            return False
        return True


class SharedKeys(Keys):
    """One key that all hosts share: each could sign for the others, so this is for a look alone."""

    kind = "shared"

    def __init__(self, given: Dict[str, Any], member: int):
        self.key, self.member = bytes.fromhex(given["own"]), member

    def tag(self, member: int, text: bytes) -> bytes:
        return hmac.new(self.key, b"%d " % member + text, "sha512").digest()

    def sign(self, text: bytes) -> bytes:
        return self.tag(self.member, text)

    def is_right(self, member: int, text: bytes, signature: bytes) -> bool:
        return hmac.compare_digest(self.tag(member, text), signature)


Signed = List[Tuple[int, bytes]]
Known = Dict[bytes, Dict[int, bytes]]
MOST_LOOSE = 20_000


class Signatures:
    """The right signatures that a host knows, by vote and member. Those that it keeps on file are
    never forgotten; of the others the oldest are, since a faulty member may sign without end."""

    def __init__(self, keys: Keys, name: str, own: int):
        self.keys, self.own = keys, own
        self.front = b"vote of the cluster " + name.encode() + b" "
        self.kept: Known = {}
        self.loose: Known = {}

    def known(self, vote: bytes, member: int) -> Optional[bytes]:
        kept = self.kept.get(vote, {}).get(member)
        return kept or self.loose.get(vote, {}).get(member)

    def is_right(self, vote: bytes, member: int, signature: bytes) -> bool:
        """Whether it is a right signature, which is then known. No vote names its cluster, so what
        is signed is the vote behind a text that does."""
        if self.known(vote, member) == signature:
            return True
        if not self.keys.is_right(member, self.front + vote, signature):
            return False
        self.learn(vote, member, signature)
        return True

    def learn(self, vote: bytes, member: int, signature: bytes) -> None:
        self.loose.setdefault(vote, {})[member] = signature
        if len(self.loose) > MOST_LOOSE:
            del self.loose[next(iter(self.loose))]

    def keep(self, vote: bytes, signed: Signed) -> None:
        for member, signature in signed:
            self.kept.setdefault(vote, {})[member] = signature

    def of(self, vote: bytes, signers: Iterable[int]) -> Signed:
        """Those that are known of these members; the own one is made."""
        if self.own in signers and not self.known(vote, self.own):
            self.learn(vote, self.own, self.keys.sign(self.front + vote))
        found = ((member, self.known(vote, member)) for member in signers)
        return [(member, signature) for member, signature in found if signature]
