"""The file of a store, read and continued by what `docs/FORMATS.md` says of it and by nothing of the program."""
import hashlib
from typing import NamedTuple, Optional

HEADER = b'COVSTORE\0\0\0\1'
OPEN, CLOSED = b'\1', b'\0'
EMPTY = HEADER + CLOSED  # what the program makes of a file that has no more bytes than this
LENGTH_BYTES, DIGEST_BYTES = 4, 32
NOT_A_STORE, CUT, DIGEST = 'not-a-store', 'cut', 'digest'
ONE_MORE, PAYLOAD_OF_IT = b'option zz\n', b'\1\2zz'  # a script of one command


class Reading(NamedTuple):
    """The payloads of the records before the end or the first damage, the place of the gate behind them, the last one's digest, and what
    the damage is, if there is any."""
    payloads: list
    gate: int
    digest: bytes
    damage: Optional[str] = None


def read(image):
    """What a file of these bytes holds. That a payload spells a command, and that this is accepted, isn't looked at."""
    reading = Reading([], len(HEADER), bytes(DIGEST_BYTES))
    if len(image) <= len(EMPTY):
        return reading
    if not image.startswith(HEADER):
        return reading._replace(damage=NOT_A_STORE)
    while image.startswith(OPEN, reading.gate):
        begin = reading.gate + 1 + LENGTH_BYTES
        end = begin + int.from_bytes(image[reading.gate + 1:begin], 'big')
        gate = end + DIGEST_BYTES
        if len(image) <= gate:
            return reading._replace(damage=CUT)
        digest = hashlib.sha256(reading.digest + image[begin:end]).digest()
        if digest != image[end:gate]:
            return reading._replace(damage=DIGEST)
        reading = Reading(reading.payloads + [image[begin:end]], gate, digest)
    return reading


def continued(image, reading, payload):
    """The file after a record of one payload more; what stands behind it stays."""
    digest = hashlib.sha256(reading.digest + payload).digest()
    record = OPEN + len(payload).to_bytes(LENGTH_BYTES, 'big') + payload + digest + CLOSED
    return image[:reading.gate] + record + image[reading.gate + len(record):]
