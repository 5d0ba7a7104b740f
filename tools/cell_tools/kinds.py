"""What a file looks like by its first bytes."""
SYNC = 0x47
EIGHT = 8 * 204  # bytes in which eight packets of any length begin


def kind_in(head):
    """What a file looks like by its beginning, if that can be seen, else None."""
    return "a cell file" if head[:4] == b"DVTC" else "a transport file" if sync_in(head[:EIGHT])[0] else None


def sync_in(head):
    """How far apart four sync bytes or more stand, and where the first one is. (None, None) if they do not."""
    for spacing in (188, 204, 192):
        for offset in range(spacing):
            run = head[offset::spacing]
            if len(run) > 3 and set(run) == {SYNC}:
                return spacing, offset
    return None, None
