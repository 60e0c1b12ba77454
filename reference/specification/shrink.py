"""Makes a document smaller while a question about it keeps its answer."""


def shrink(document, holds):
    """A document from which no single character, and no half, quarter .. of it, can be taken so that it still holds."""
    text = document.decode()
    size = max(len(text) // 2, 1)
    while True:
        place, shorter = 0, False
        while place < len(text):
            trial = text[:place] + text[place + size:]
            if trial and holds(trial.encode()):
                text, shorter = trial, True
            else:
                place += size
        if size > 1:
            size //= 2
        elif not shorter:
            return text.encode()
