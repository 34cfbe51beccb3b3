"""What a call is given: bytes and texts."""
from typing import Union

from ._errors import NO_MEMORY, OutOfMemory

Input = Union[bytes, bytearray, memoryview, str]


def bytes_of(value: Input) -> bytes:
    """The bytes of an input, by no method that a class derived from its own may replace: the library believes their length.

    Bytes are not copied. Half of a surrogate pair becomes bytes that are no UTF-8, which the library refuses in its words.
    """
    if type(value) is bytes:
        return value
    try:
        if isinstance(value, str):
            return str.encode(value, "utf-8", "surrogatepass")
        if isinstance(value, (bytes, bytearray, memoryview)):
            return memoryview(value).tobytes()
    except MemoryError:
        raise OutOfMemory(NO_MEMORY) from None
    except ValueError:
        raise TypeError("an input is bytes or a text, not a view that was released") from None
    raise TypeError("an input is bytes or a text, not %s" % type(value).__name__)
