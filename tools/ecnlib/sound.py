"""The sound blocks of a trace whose arrivals blocks may be of any number of sources. Each is judged by the proved library, as ecntable would
judge it in a trace of that source."""
from typing import Iterator, NamedTuple

from . import files, several
from .blocks import FORMS, Form, blocks_in
from .common import REFUSED, Ended, refused_words
from .library import package
from .runs import Progress


class Sound(NamedTuple):
    index: int
    form: Form
    ssrc: int
    block: bytes


def sound_blocks(trace: str) -> Iterator[Sound]:
    """Block 0, and the arrivals blocks after it. The first that is refused ends them."""
    flasknib, form = package(needed=True), None
    with several.watched(Progress([trace])), several.reading(trace) as file:
        for index, block in enumerate(blocks_in(file)):
            try:
                found = flasknib.read_block(block)
                if form is None:
                    flasknib.Streams(block)  # it takes a label block only
                    form = next(each for each in FORMS.values() if each.label == found.kind)
                else:
                    flasknib.read_own(form.number, found.ssrc, block)
            except flasknib.Refused as refused:
                raise Ended(REFUSED, f"{files.shown(trace)}: {refused_words(refused.number, index)}") from None
            yield Sound(index, form, found.ssrc, block)
