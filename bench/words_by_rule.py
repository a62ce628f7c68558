"""Words with hyphens by the rules of the definitions of `etx_tfm` and `etx_hyphen`, in Python: what bench/words.py compares with."""
import struct


class Font:
    """The lig/kern programs of a TFM file. An action is None, ("k", width) or ("m", code, keeps left, keeps right, passes)."""

    def __init__(self, data, number):
        self.number = number
        lf, lh, bc, ec, nw, nh, nd, ni, nl, nk, ne, np = struct.unpack(">12H", data[:24])
        at = 24 + 4 * lh
        self.chars = {bc + i: data[at + 4 * i:at + 4 * i + 4] for i in range(ec - bc + 1)}
        at += 4 * (ec - bc + 1) + 4 * (nw + nh + nd + ni)
        self.steps = [data[at + 4 * i:at + 4 * i + 4] for i in range(nl)]
        at += 4 * nl
        self.kerns = [struct.unpack(">i", data[at + 4 * i:at + 4 * i + 4])[0] * 10 * 65536 // 2**20 for i in range(nk)]
        self.boundary = self.steps[0][1] if nl and self.steps[0][0] == 255 else None
        self.start = 256 * self.steps[-1][2] + self.steps[-1][3] if nl and self.steps[-1][0] == 255 else None

    def exists(self, code):
        return code in self.chars and self.chars[code][0] > 0

    def action(self, left, right):
        if left is None:
            place = self.start
        else:
            info = self.chars.get(left)
            if not info or info[0] == 0 or info[2] & 3 != 1:
                return None
            place = info[3]
            if self.steps[place][0] > 128:
                place = 256 * self.steps[place][2] + self.steps[place][3]
        wanted = self.boundary if right is None else right
        while place is not None and wanted is not None:
            skip, following, op, rest = self.steps[place]
            if following == wanted and skip <= 128:
                if op >= 128:
                    return ("k", self.kerns[256 * (op - 128) + rest])
                return ("m", rest, bool(op & 2), bool(op & 1), op >> 2)
            place = place + skip + 1 if skip < 128 else None
        return None


def item(piece):
    return None if piece[0] in "LR" else piece[1]


def letters(piece):
    return [piece[1]] if piece[0] == "c" else list(piece[2]) if piece[0] == "m" else []


def side(edge, neighbour):
    return [] if neighbour is None else [(edge,)] if neighbour == "boundary" else [("b", neighbour)]


def is_end(rest):
    return not rest or rest[0][0] == "R"


def reading(font, chars, left, right):
    """The nodes of a run between its neighbours (None, "boundary" or a code), and its clean places."""
    rest = side("L", left) + [("c", code) for code in chars] + side("R", right)
    written, places, edges, touched = [], [], [False, False], 0

    def write(piece, ends):
        if piece[0] == "c":
            written.append(("c", font.number, piece[1]))
        elif piece[0] == "m":
            written.append(("l", font.number, piece[1], edges[0], edges[1] and ends, tuple(piece[2])))
            edges[0] = False
            edges[1] = edges[1] and not ends

    while rest:
        if len(rest) == 1:
            write(rest[0], True)
            break
        x, y, behind = rest[0], rest[1], rest[2:]
        touched = max(touched - 1, 0)
        action = font.action(item(x), item(y))
        clean = action is None and touched < 1 and (x[0] in "Lbc" or x[0] == "m" and len(x[2]) > 0)
        if action is None or action[0] == "k":
            write(x, y[0] == "R")
            if action:
                written.append(("k", action[1]))
            rest = [y] + behind
        else:
            _, code, keeps_x, keeps_y, passes = action
            edges[0] = edges[0] or x[0] == "L"
            edges[1] = edges[1] or x[0] != "L" and y[0] == "R"
            made = ("m", code, ([] if keeps_x else letters(x)) + ([] if keeps_y else letters(y)))
            passes = min(passes, keeps_x + keeps_y)
            rest = ([x] if keeps_x else []) + [made] + ([y] if keeps_y else []) + behind
            touched = max(touched - 1, 0) + keeps_x + keeps_y + 1 - passes
            for _ in range(passes):
                first = rest.pop(0)
                write(first, is_end(rest))
        if clean:
            places.append((len(chars) - sum(len(letters(it)) for it in rest), len(written)))
    return written, places


def cut(font, hyphen, ends, chars, unbroken, place):
    nodes, places = unbroken
    left, left_places = reading(font, chars[:place] + ([hyphen] if font.exists(hyphen) else []), ends[0], "boundary")
    right, right_places = reading(font, chars[place:], "boundary", ends[1])
    start = (0, 0, 0)
    for count, before in places:
        if count <= place and count in dict(left_places):
            start = (count, before, dict(left_places)[count])
    end = (len(chars), len(nodes), len(right))
    for count, before in places:
        if count >= place and count - place in dict(right_places):
            end = (count, before, dict(right_places)[count - place])
            break
    return start, end, left[start[2]:], right[:end[2]]


def rebuilt(font, hyphen, ends, chars, places):
    unbroken = reading(font, chars, *ends)
    out, at, reached = [], 0, 0
    for place in places:
        start, end, pre, post = cut(font, hyphen, ends, chars, unbroken, place)
        if start[0] < reached:
            continue
        out += unbroken[0][at:start[1]] + [("d", pre, post, end[1] - start[1])]
        at, reached = start[1], end[0]
    return out + unbroken[0][at:]


def is_letter(code):
    return 97 <= code <= 100


def places_in(chars):
    """By the patterns 1b, c1 and a1a."""
    return [k for k in range(1, len(chars)) if chars[k] == 98 or chars[k - 1] == 99 or chars[k - 1] == chars[k] == 97]


def parts(node):
    return (node[1], (node[2],), False, False) if node[0] == "c" else (node[1], node[5], node[3], node[4]) if node[0] == "l" else None


def gathered(font, nodes):
    chars, count, right = [], 0, None
    for node in nodes:
        it = parts(node)
        if it and it[0] == font.number and all(map(is_letter, it[1])) and len(chars) + len(it[1]) <= 63:
            chars += it[1]
            right = "boundary" if it[3] else None
        elif node[0] == "k":
            right = "boundary"
        else:
            if it and it[0] == font.number and it[1]:
                right = it[1][0]
            break
        count += 1
    return chars, count, right


def may_follow(nodes):
    for node in nodes:
        if node[0] not in "clk":
            return node[0] in "gpK"
    return True


def word_at(fonts, looking, before, nodes):
    """How many items the word that begins here has, and its nodes."""
    it = parts(nodes[0])
    if not it or not looking:
        return None
    opening = it
    edge = nodes[0][0] == "l" and not it[1] and it[2]
    if edge:
        opening = parts(nodes[1]) if len(nodes) > 1 else None
        if not opening or opening[0] != it[0]:
            return None
    if not opening[1] or not is_letter(opening[1][0]):
        return None
    if edge:
        left = "boundary"
    elif before is None:
        left = "boundary" if opening[2] else None
    else:
        left = before[1] if before[0] == opening[0] else "boundary"
    font = fonts[opening[0]]
    chars, count, right = gathered(font, nodes)
    places = places_in(chars)
    if not may_follow(nodes[count:]) or not places:
        return None
    return count, rebuilt(font, 45, (left, right), chars, places)


def hyphenated(fonts, nodes):
    out, at, looking, before = [], 0, False, None
    while at < len(nodes):
        word = word_at(fonts, looking, before, nodes[at:])
        if word:
            out += word[1]
            at += word[0]
            looking = False
            continue
        node = nodes[at]
        it = parts(node)
        if it:
            looking = looking and not (it[1] and is_letter(it[1][0]))
        elif node[0] == "g":
            looking = True
        elif node[0] != "k":
            looking = False
        before = (node[1], node[2]) if it else None
        out.append(node)
        at += 1
    return out
