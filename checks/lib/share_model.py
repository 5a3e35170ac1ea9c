"""The shares of a link at which a verdict is the same, by the model of python/precopy_dev/models/shares.py, which makes
plans page by page."""

from precopy_dev.models.shares import LinkShare

WORDS = {"yes": "converges", "no": "does not converge"}


def share_lines(found: LinkShare) -> list[str]:
    """The line of `precopy-view predict`, if the verdict at all of the link is known."""
    if found.verdict == "unknown":
        return []
    least = "" if found.share == 100 else f"{found.share} to "
    below = "" if found.below is None else f"; at {found.share - 1} {found.below}"
    return [f"share of the link: {WORDS[found.verdict]} at {least}100 per cent{below}"]


def share_member(found: LinkShare) -> dict:
    """The member of `precopy-view json predict`, if there is one."""
    if found.verdict == "unknown":
        return {}
    below = {} if found.below is None else {"below": found.below}
    return {"link_shares": {"converges": found.verdict, "percent": found.share, **below}}
