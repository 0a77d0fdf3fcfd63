"""A writer of part sheets for the tests, written from document 02 alone, its requests 2 and 7, and independent of the library. Books are those of book_reader.
How many bytes sheets take is the length of their text."""

MOST = 79                              # bytes an entry, of the sheets of any way


def parts(way):
    """The parts of a way, by rising number of their opening entries: the entries of each in playing order."""
    found = [[j] for j, i in enumerate(way, 1) if i == 0]
    for part in found:
        while part[-1] in way: part.append(way.index(part[-1]) + 1)
    return found


def sheets(text, book, way):
    """The sheets of a way of the book that the bytes `text` hold. Where no line says what a join takes, it stays on one instrument and takes no ticks."""
    ticks, lines = {(a, b): t for a, b, t, _ in book.moves}, []
    for n, part in enumerate(parts(way), 1):
        lines.append(b"(part %d" % n)
        before = None
        for j in part:
            (arrives, leaves, start, finish), (begin, end) = book.entries[j - 1], book.names[j - 1]
            if before is not None:
                instrument, ended = before
                lines.append(b"(gap %d %d)" % (start - ended, start - ended - ticks.get((instrument, arrives), 0)))
            lines.append(b"(play (name %s) %d %d)" % (text[begin:end], start, finish))
            before = leaves, finish
        lines.append(b")")
    return b"".join(line + b"\n" for line in lines)
