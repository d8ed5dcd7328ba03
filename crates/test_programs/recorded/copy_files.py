#!/usr/bin/env python3
"""Makes the files `rows.*` and `line_ends` of `data` with a server of Debian's postgresql-15: the rows of one table, by `COPY .. TO` in text
and in binary, and in text with options; and what `COPY .. FROM` says of small files whose lines end in one way or in several. It needs to
run as root, with the package installed."""

import os, pwd, shutil, subprocess, tempfile

DATA = os.path.join(os.path.dirname(os.path.dirname(os.path.abspath(__file__))), "data")
BIN = "/usr/lib/postgresql/15/bin/"

# Every byte from 1 to 127 alone, among others and before digits (which an octal or hexadecimal escape would take); nulls, empty
# texts, and texts that look like a null, an end mark or an escape.
SCRIPT = r"""
CREATE TABLE rows (number serial, one text, two text, three text);
INSERT INTO rows (one, two, three) SELECT chr(i), 'a' || chr(i) || 'b', chr(i) || '1' FROM generate_series(1, 127) AS i;
INSERT INTO rows (one, two, three)
    SELECT string_agg(chr(i), '' ORDER BY i), string_agg(chr(i), '' ORDER BY i DESC), NULL FROM generate_series(1, 127) AS i;
INSERT INTO rows (one, two, three) VALUES
    (NULL, NULL, NULL), ('', '', ''), (NULL, '', NULL), ('', NULL, ''), ('a', NULL, ''),
    (E'\\N', E'\\.', 'N'), (E'\\\\N', E'\\\\.', E'\\N\\N'), (E'\\.', NULL, NULL), ('.', 'N', E'\\'),
    (E'\\x41', E'\\101', E'\\t'), (E'\t', E'\n', E'\r'), (E'\r\n', E'\t\t', E'\\\n'), ('x41', '101', E'\\\\'),
    (repeat('long ', 50), repeat(E'\\', 20), repeat(E'\t', 20));
COPY (SELECT one, two, three FROM rows ORDER BY number) TO '%(folder)s/rows.text';
COPY (SELECT one, two, three FROM rows ORDER BY number) TO '%(folder)s/rows.binary' (FORMAT binary);
COPY (SELECT one, two, three FROM rows ORDER BY number) TO '%(folder)s/rows.comma' (DELIMITER ',');
COPY (SELECT one, two, three FROM rows ORDER BY number) TO '%(folder)s/rows.bar' (DELIMITER '|');
COPY (SELECT one, two, three FROM rows ORDER BY number) TO '%(folder)s/rows.empty' (NULL '');
COPY (SELECT one, two, three FROM rows ORDER BY number) TO '%(folder)s/rows.none' (NULL 'none');
COPY (SELECT one, two, three FROM rows ORDER BY number) TO '%(folder)s/rows.comma_empty' (DELIMITER ',', NULL '');
"""

FILES = ["rows." + kind for kind in ("text", "binary", "comma", "bar", "empty", "none", "comma_empty")]

# Files of one column, as printf writes them.
LINE_ENDS = [
    r"a\nb\n", r"a\r\nb\r\n", r"a\rb\r", r"a\r", r"a\r\n", r"a\nb", r"a\r\nb", r"a\rb",
    r"a\nb\r\n", r"a\nb\r", r"a\nb\rc\n", r"a\rb\n", r"a\rb\r\n", r"a\r\nb\n", r"a\r\nb\r", r"a\r\nb\rc\r\n",
    r"a\\\r\n", r"a\\\nb\r\n", r"a\\\rb\r", r"\r\n\r\n", r"\r\n\n", r"\n\r\n",
]


def printf(text):
    """The bytes that printf writes."""
    return text.encode().decode("unicode_escape").encode()


def written(content):
    """The text by which printf writes these bytes."""
    return content.decode().replace("\\", r"\\").replace("\n", r"\n").replace("\r", r"\r")


def line_ends(folder, run):
    """What the server says of each file: a line with the file, and after a tab `refused`, or the rows as it writes them."""
    lines = []
    for name in LINE_ENDS:
        with open(f"{folder}/in", "wb") as file:
            file.write(printf(name))
        os.chmod(f"{folder}/in", 0o644)
        script = f"CREATE TEMPORARY TABLE lines (one text); COPY lines FROM '{folder}/in'; COPY lines TO '{folder}/out';"
        try:
            run(*psql(folder), input=script.encode(), stderr=subprocess.DEVNULL)
            with open(f"{folder}/out", "rb") as file:
                lines.append(f"{name}\t{written(file.read())}\n")
        except subprocess.CalledProcessError:
            lines.append(f"{name}\trefused\n")
    return "".join(lines)


def psql(folder):
    return [BIN + "psql", "-X", "-q", "-v", "ON_ERROR_STOP=1", "-h", folder, "-U", "postgres", "-d", "postgres"]


def main():
    folder = tempfile.mkdtemp(prefix="recorded-")
    user = pwd.getpwnam("postgres")
    os.chown(folder, user.pw_uid, user.pw_gid)

    def run(*words, **options):
        subprocess.run(["runuser", "-u", "postgres", "--", *words], check=True, stdout=subprocess.DEVNULL, cwd=folder, **options)

    cluster = folder + "/cluster"
    run(BIN + "initdb", "-D", cluster, "-A", "trust", "-U", "postgres", "--locale=C", "-E", "UTF8", "--no-sync")
    run(BIN + "pg_ctl", "-D", cluster, "-w", "-o", f"-k {folder} -c listen_addresses= -c fsync=off", "start")
    try:
        run(*psql(folder), input=(SCRIPT % {"folder": folder}).encode())
        ends = line_ends(folder, run)
    finally:
        run(BIN + "pg_ctl", "-D", cluster, "-m", "immediate", "stop")
    with open(f"{DATA}/line_ends", "w") as file:
        file.write(ends)
    for name in FILES:
        shutil.copyfile(f"{folder}/{name}", f"{DATA}/{name}")
    shutil.rmtree(folder)


if __name__ == "__main__":
    main()
