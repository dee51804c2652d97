#!/usr/bin/env python3
"""Makes the cases of the program crates/gridfile_cases and what it must print.

Run from the root of the repository:

    python3 oracle/gridfile_cases.py crates/gridfile_cases

It writes the files `stdin` (the grid files, each behind its length in two bytes, high byte first) and `stdout` (the expected
answers). The answers come from `reading` below, a second reader that is built from the documents and not from the program: it
looks at the whole file, finds for each rule all the bytes at which it applies, and takes the first byte and there the rule
that is tested first. A refused file is answered by `refused,number,line,field`, an accepted one by the grid as it is written
back, which must be the file itself, byte for byte. The program prints a line `past` for each cell past the last row that is not
blank; none is expected.
"""
import random
import sys

DIGITS = b"0123456789"
LARGEST = 4294967295
LEAST_SIZE, LARGEST_SIZE = 2, 16


def is_size(text):
    return text != b"" and LEAST_SIZE <= int(text) <= LARGEST_SIZE


def place(file, at):
    """Line and field, from 1, of the byte at a place (or of the end of the file)."""
    before = file[:at]
    return before.count(b"\n") + 1, before[before.rfind(b"\n") + 1:].count(b",") + 1


def field_text(file, at):
    """The text of the field of the byte at a place, up to that byte."""
    start = max(file.rfind(b",", 0, at), file.rfind(b"\n", 0, at)) + 1
    return file[start:at]


def is_disallowed(file, at):
    """Whether the byte at a place is disallowed. A hole is `#` alone in its field, and the header has none."""
    byte, before = file[at], field_text(file, at)
    if byte in b",\n":
        return False
    if byte == ord("#"):
        return before != b"" or b"\n" not in file[:at]
    return byte not in DIGITS or b"#" in before


def is_after_leading_zero(file, at):
    """Whether the byte at a place is the second digit of a field that starts with 0."""
    return file[at] in DIGITS and field_text(file, at) == b"0"


def reading(file):
    """(number, line, field), all 0 where the file is accepted."""
    found = []  # (byte, order of the test there, number, line, field)

    def applies(at, order, number, field=None):
        line, own = place(file, at)
        found.append((at, order, number, line, own if field is None else field))

    line_ends = [i for i, b in enumerate(file) if b == 10]
    separators = [i for i, b in enumerate(file) if b in b",\n"]
    header = file[: line_ends[0]].split(b",") if line_ends else []
    sound = len(header) == 2 and all(f.isdigit() or f == b"" for f in header) and is_size(header[0]) and is_size(header[1])
    height, width = (int(header[0]), int(header[1])) if sound else (None, None)

    for i, b in enumerate(file):
        if is_disallowed(file, i):
            has_digit = any(c in DIGITS for c in field_text(file, i))
            applies(i, 1, 13 if has_digit else 1)
        if is_after_leading_zero(file, i):
            applies(i, 2, 15)
        if len(file[max(0, i - 10): i + 1]) == 11 and file[i - 10: i + 1].isdigit():
            applies(i, 3, 2)
    for i in separators:
        text = field_text(file, i)
        if text.isdigit() and int(text) > LARGEST:
            applies(i, 4, 3)
        line, field = place(file, i)
        due = 2 if line == 1 else width
        if due is not None:
            if file[i] == 10 and field < due:
                applies(i, 5, 4)
            if file[i] == 44 and field == due:
                applies(i, 5, 4)
    if line_ends and len(header) == 2:
        for k in (0, 1):
            if (header[k].isdigit() or header[k] == b"") and not is_size(header[k]):
                applies(line_ends[0], 6, 5, k + 1)
                break
    if sound and len(line_ends) > height:
        end = line_ends[height] + 1
        if len(file) > end:
            applies(end, 0, 6)
    else:
        applies(len(file), 0, 6)

    return min(found)[2:] if found else (0, 0, 0)


def refused(number, line, field):
    return b"refused,%d,%d,%d\n" % (number, line, field)


def answer(file):
    refusal = reading(file)
    return refused(*refusal) if refusal[0] else file


def grid_file(height, width, fields):
    rows = [b",".join(fields[row * width:(row + 1) * width]) + b"\n" for row in range(height)]
    return b"%d,%d\n" % (height, width) + b"".join(rows)


def grid(height, width, cell=b""):
    return grid_file(height, width, [cell] * (height * width))


def in_each_field(text):
    """Six files of 2 by 2 blank pads, a text in one field of each: the header's two, then the rows' four."""
    for at in range(6):
        fields = [b"2", b"2", b"", b"", b"", b""]
        fields[at] = text
        yield b"%s,%s\n%s,%s\n%s,%s\n" % tuple(fields)


def leading_zeros():
    # 15 and its order among the tests: a leading 0 before digits, before a disallowed byte and before both; fields of two to
    # twelve digits
    for text in (b"00", b"01", b"07", b"09", b"0O", b"0#", b"00x", b"007x", b"00#", b"0000000002", b"00000000000",
                 b"0%d" % LARGEST, b"012345678901x"):
        yield from in_each_field(text)
    # a 0 alone, and zeros that do not lead
    for text in (b"0", b"10", b"100", b"1000000000"):
        yield from in_each_field(text)
    # the rear door and the front; a 0 alone and a field behind it that starts with 0, also on the next line
    yield b"2,2\n07,7\n,\n"
    yield b"2,2\n7,07\n,\n"
    yield b"2,2\n7,\n,07\n"
    yield b"0,0\n"
    yield b"0,00\n"
    yield b"2,2\n0,0\n0,0\n"
    yield b"2,2\n0,00\n,\n"
    yield b"2,2\n,0\n00,\n"
    yield b"2,2\n0,10\n,\n"
    # where the file ends, where a row has too many fields, behind a hole's sign, and after the last row
    yield b"00"
    yield b"2,2\n,\n,0"
    yield b"2,2\n,\n,07"
    yield b"2,2\n,0,07\n"
    yield b"2,2\n,07,\n"
    yield b"2,2\n#07,\n,\n"
    for rest in (b"0", b"7", b"00", b"07"):
        yield b"2,2\n,\n,0\n" + rest


def cases():
    good = b"3,3\n5,,6\n,,\n6,,5\n"
    drilled = b"3,3\n5,#,6\n#,,\n6,,#\n"
    largest, beyond = b"%d" % LARGEST, b"%d" % (LARGEST + 1)
    # the example, K10 to K12
    yield b"2,2\n5,\n,5\n"
    yield b"2,2\n%s,\n,\n" % largest
    yield b"2,2\n%s,\n,\n" % beyond
    yield b"2,2\n1O,\n,1O\n"
    yield b"2,2\n,1O\n1O,\n"
    yield b"1,2\n,\n"
    # 1 and 13 in each field of the header and the rows: letters for digits, a space, a quote mark and a return before and
    # after a digit; a letter after ten digits and after eleven; a second disallowed byte; a hole, which is alone in its field,
    # and what may not stand before or after its sign
    for text in (b"x", b"1x", b"1234567890x", b"12345678901x", b"1O", b"1o", b"O1", b"l0", b"1l", b"O", b" 5", b"5 ", b"\"5\"",
                 b"5\"", b"\r", b"5\r", b"9999999999x", b"x1x", b"1 x",
                 b"#", b"##", b"#5", b"5#", b"# ", b" #", b"#\r", b"2#", b"#2", b"1234567890#", b"12345678901#", b"5##"):
        yield from in_each_field(text)
    # a disallowed byte where the file ends, and where a row has too few fields or too many
    yield b"x"
    yield b"2x"
    yield b"2,2\n5,\n5,5x"
    yield b"2,2\n5,\n5x\n"
    yield b"2,2\n5,5x,\n"
    yield b"2,2\n5,5,x\n"
    # holes where the file ends, where a row has too few fields or too many, and as a whole grid
    yield b"#"
    yield b"2,2\n#"
    yield b"2,2\n#\n,\n"
    yield b"2,2\n#,#,\n"
    yield b"2,2\n#,#\n"
    yield b"2,2\n#,#\n#,#"
    yield b"2,2\n#,#\n#,#\n"
    yield b"2,2\n#,#\n#,#\n#"
    yield b"2,3\n5,,#\n#,0,5\n"
    # an empty file, every beginning of two good ones (the last 0A missing among them), and bytes after them
    for end in range(len(good) + 1):
        yield good[:end]
    for end in range(len(drilled) + 1):
        yield drilled[:end]
    yield drilled + b"#"
    for byte in (0, 10, 32, 35, 44, 48, 57, 120, 255):
        yield good + bytes([byte])
        yield grid(16, 16) + bytes([byte])
    # 1 and 13: a bad byte at each place of a good file, in place of the byte there
    for at in range(len(good)):
        for byte in (0, 13, 34, 35, 36, 45, 47, 58, 255):
            yield good[:at] + bytes([byte]) + good[at + 1:]
    for at in range(len(drilled)):
        for byte in b"#7,\n ":
            yield drilled[:at] + bytes([byte]) + drilled[at + 1:]
    yield from leading_zeros()
    # 2 and 3: ten and eleven digits, the edges of 31 and 32 bits, the largest code and one more, alone and before a zero, in the
    # first, a middle and the last field
    for text in (b"2147483646", b"2147483647", b"2147483648", b"4294967294", largest, beyond, b"4294967301", b"9999999999",
                 b"10000000000", largest + b"0", beyond + b"0", b"12345678901", b"99999999999"):
        yield b"%s,2\n,\n,\n" % text
        yield b"2,%s\n,\n,\n" % text
        yield b"2,2\n%s,\n,\n" % text
        yield b"2,2\n,%s\n,\n" % text
        yield b"2,2\n,\n,%s\n" % text
    # 4: too few fields and a comma after the last, in the header, the first, a middle and the last row
    yield b"\n"
    yield b"2\n"
    yield b"17\n"
    yield beyond + b"\n"
    yield b"2,2,"
    yield b"2,2,2\n"
    yield b"17,17,"
    yield b"1,%s," % beyond
    for row in range(1, 4):
        lines = good.split(b"\n")
        lines[row] = b"7,7"
        yield b"\n".join(lines)
        lines[row] = b""
        yield b"\n".join(lines)
        lines[row] = b"7,7,7,"
        yield b"\n".join(lines)
        lines[row] = b"7,7,7,7"
        yield b"\n".join(lines)
    # 5: H and W at 0, 1, 2, 16, 17, 256 and empty; with 3 and 4 at the same byte
    for h in (b"", b"0", b"1", b"2", b"16", b"17", b"256"):
        for w in (b"", b"0", b"1", b"2", b"16", b"17"):
            yield b"%s,%s\n" % (h, w)
            if h and w and int(h) <= 17:
                yield b"%s,%s\n" % (h, w) + (b"," * (int(w) - 1) + b"\n") * int(h)
    for code in (largest, beyond):
        yield b"1,%s\n" % code
        yield b"%s,1\n" % code
    # the largest grids, ten digits in every field; one byte cut off, one more; ten digits in the header
    longest = grid(16, 16, largest)
    yield longest
    yield longest[:-1]
    yield longest + b"0"
    yield grid(16, 16)
    yield grid(16, 16).replace(b"16,16", b"0000000016,0000000016")
    yield grid(16, 16, b"#")
    yield grid(2, 16, b"7")
    yield grid(16, 2, b"0")
    # 4,096 bytes of digits, of commas, of line ends
    yield b"1" * 4096
    yield b"," * 4096
    yield b"\n" * 4096
    # damaged copies of good files, here and there with a leading zero
    texts = [b"", b"", b"#", b"0", b"7", b"12", largest] * 12 + [b"0009"]
    chance = random.Random(4711)
    for _ in range(600):
        h, w = chance.randint(2, 5), chance.randint(2, 5)
        fields = lambda: b",".join(chance.choice(texts) for _ in range(w))
        file = bytearray(b"%d,%d\n" % (h, w) + b"".join(fields() + b"\n" for _ in range(h)))
        for _ in range(chance.choice([0, 1, 1, 1, 2, 3])):
            at = chance.randrange(len(file) + 1)
            kind = chance.randrange(3)
            if kind == 0 and at < len(file):
                del file[at]
            elif kind == 1 and at < len(file):
                file[at] = chance.choice(b"0123456789,,,\n\n\n##O -\x00\xff")
            else:
                file.insert(at, chance.choice(b"0123456789,,,\n\n\n##O -\x00\xff"))
        yield bytes(file)


def write_cases(folder, inputs, answers, most):
    """Writes `stdin`, each input behind its length, at most so many bytes in all, and `stdout`."""
    with open(folder + "/stdin", "wb") as out:
        for given in inputs:
            out.write(len(given).to_bytes(2, "big") + given)
        size = out.tell()
    with open(folder + "/stdout", "wb") as out:
        out.write(b"".join(answers))
    assert size <= most, size
    accepted = sum(not text.startswith(b"refused") for text in answers)
    print("%d cases, %d bytes, %d of them accepted" % (len(inputs), size, accepted))


def main():
    files = list(cases())
    write_cases(sys.argv[1], files, [answer(file) for file in files], 65536)


if __name__ == "__main__":
    main()
