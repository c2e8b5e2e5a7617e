"""The least that a sweep has to do: one that tried nothing, or refused nothing, must not pass."""


def lacking(seen, least, share=1):
    """What was done less often than is asked for, as texts; a share of it is asked for where a share is tried."""
    wanted = {what: int(count * share) for what, count in least.items()}
    return [f"only {seen.get(what, 0)} {what}, where {count} are asked for" for what, count in wanted.items() if seen.get(what, 0) < count]
