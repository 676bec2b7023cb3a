"""Papers as PDF, by WeasyPrint: each is a document of its own, so that page n of m is its own; some at a time, and these are joined by
qpdf, so that no more than some are ever in memory."""
import functools
import subprocess
from collections.abc import Iterable, Iterator
from itertools import islice
from pathlib import Path
from tempfile import TemporaryDirectory
from typing import Any

import weasyprint
from jinja2 import Environment, FileSystemLoader

from .languages import Language
from .letterhead import logo_of
from .papers import Paper
from .settings import Settings
from .store import Refused

HERE = Path(__file__).resolve().parent
AT_ONCE = 40
ENVIRONMENT = Environment(loader=FileSystemLoader(HERE / "templates"), autoescape=True, trim_blocks=True, lstrip_blocks=True)


def own_alone(address: str, *_: object, **more: object) -> Any:
    """What a paper asks for: its logo, which it has in itself, and nothing else."""
    if not address.startswith("data:"):
        raise ValueError(f"A paper asks for nothing, and not for {address}")
    return weasyprint.default_url_fetcher(address)


def page_marks(language: Language) -> str:
    """The style that numbers the pages, by the language's sentence."""
    words = language.say("Page {page} of {pages}", page='" counter(page) "', pages='" counter(pages) "')
    return f'@page {{ @bottom-right {{ content: "{words}"; font: 8pt "DejaVu Sans", sans-serif; color: #4a525d; }} }}'


@functools.cache
def style_of(language: Language) -> weasyprint.CSS:
    """The style of papers in a language."""
    return weasyprint.CSS(string=(HERE / "static/paper.css").read_text(encoding="utf-8") + page_marks(language))


def html_of(paper: Paper, settings: Settings, logo: str, stylesheet: str = "") -> str:
    """A statement as a page."""
    return ENVIRONMENT.get_template("paper.html").render(
        paper=paper,
        it=paper.statement,
        owner=paper.addressee(),
        head=settings.letterhead,
        logo=logo,
        currency=settings.currency,
        words=paper.language,
        stylesheet=stylesheet,
        t=paper.language.markup,
    )


def batches(papers: Iterator[Paper]) -> Iterator[list[Paper]]:
    """Some papers at a time."""
    while batch := list(islice(papers, AT_ONCE)):
        yield batch


def write_batch(batch: list[Paper], settings: Settings, logo: str, file: Path) -> None:
    """Some papers as one file, each with its own number of pages."""
    documents = [
        weasyprint.HTML(string=html_of(it, settings, logo), url_fetcher=own_alone).render(stylesheets=[style_of(it.language)])
        for it in batch
    ]
    documents[0].copy([page for it in documents for page in it.pages]).write_pdf(file)


def write_pdf(papers: Iterable[Paper], settings: Settings, file: Path) -> int:
    """Papers as one PDF, which gets its name once it is whole; how many there are."""
    logo, count = logo_of(settings.letterhead), 0
    file.parent.mkdir(mode=0o750, parents=True, exist_ok=True)
    with TemporaryDirectory(dir=file.parent, prefix=".begun-") as folder:
        parts = list[Path]()
        for batch in batches(iter(papers)):
            parts.append(Path(folder, f"{len(parts):05}.pdf"))
            write_batch(batch, settings, logo, parts[-1])
            count += len(batch)
        if not parts:
            raise Refused("No account of this branch has an owner in the register")
        whole = Path(folder, "whole.pdf")
        subprocess.run(["qpdf", "--empty", "--pages", *map(str, parts), "--", str(whole)], check=True)
        whole.rename(file)
    return count
