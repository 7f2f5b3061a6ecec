"""The crates, and the tables of docs/ that are held to them."""

from pathlib import Path

ROOT = Path(__file__).resolve().parent.parent.parent
CRATES = ROOT / 'crates'
CLAIMS = ROOT / 'docs' / 'CLAIMS.md'
ONE_ANSWER = ROOT / 'docs' / 'ONE_ANSWER.md'


def section(title):
    """What stands under a heading of the claims."""
    return CLAIMS.read_text('utf-8').partition(f'\n## {title}\n')[2].partition('\n## ')[0]
