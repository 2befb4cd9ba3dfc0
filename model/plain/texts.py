"""The lines of a text, and the text of lines."""



# ---- texts


def lines_of(text):
    pieces = text.split(b"\n")
    if pieces[-1] == b"":
        pieces.pop()
    return [piece[:-1] if piece.endswith(b"\r") else piece for piece in pieces]


# ---- the generator


def text_of(lines):
    return b"".join(line + b"\n" for line in lines)
