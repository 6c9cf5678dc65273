"""Full registers that sqlite3 makes: 9,999 tapes, 20,000 clips and 9,999 offers are the most."""

UMID = "060a2b340101010501010d2013000000001122{}445566778899aabbccddeeff"
OFFERED = UMID.format("33").replace("13000000", "13000003")
COUNT = "WITH RECURSIVE count (n) AS (SELECT {} UNION ALL SELECT n + 1 FROM count WHERE n < {})"


def clip(title, umid):
    return f'{{"frames":1,"in":"00:00:00:00","tape":9999,"title":"{title}","umid":"{UMID.format(umid)}"}}'


def clip_lines(last):
    yield f"C0000001 active  23:59:59:24       1    1 {UMID.format('33')} NEWS"
    yield f"C0000002 retired 10:00:00:00     125    3 {UMID.format('34')} ~ 2"
    for n in range(3, 20000):
        umid = "060a2b340101010501010d20130000000011223344556677" + f"{n:08}".encode().hex()
        yield f"C{n:07} active  00:00:00:00       1    1 {umid} CLIP"
    yield f"C0020000 {last} 00:00:00:00       1 9999 {UMID.format('35')} LAST"
    yield "CLIPS 20000"


def offer_lines():
    yield "0001 C0000001 002 withdrawn"
    yield "0002 C0000001 999 open"
    for n in range(3, 10000):
        yield f"{n:04} C0000001 003 withdrawn"
    yield "OFFERS 9999"


def tape_lines():
    yield from ("   1 T1          1", "   2 T2          2", "   3 T3        out", "   4 T4          3")
    for n in range(5, 9999):
        yield f"{n:4} {f'T{n}':8}  out"
    yield "9999 LAST        9"
    yield "TAPES 9999 SHELVED 4 SLOTS 40"


def asks(path, body, answer):
    print(f"POST /ch/1/{path} {body}\n{answer}")


def shows(table, lines):
    print(f"$ table --db FILE --ch 1 {table}\n0", *lines, sep="\n")


print("after rows-of-an-office\nways file\n")
print(f"sql {COUNT.format(5, 9998)} INSERT INTO tape SELECT 1, n, 'T' || n, NULL FROM count")
print(f"sql {COUNT.format(3, 19999)} INSERT INTO clip SELECT 1, n, 1, 'CLIP',")
print("+ \\x20CAST(x'060a2b340101010501010d20130000000011223344556677' || printf('%08d', n) AS BLOB), 0, 1, 0 FROM count")
print(f"sql {COUNT.format(3, 9998)} INSERT INTO offer SELECT 1, n, 3, 1, 'NEWS', x'{OFFERED}', '25', 2159999, 1, 1 FROM count")
asks("tapes", '{"barcode":"LAST","slot":9}', '200 {"tape":9999}')
asks("tapes", '{"barcode":"ONEMORE","slot":10}', '409 {"code":48,"refused":"VaultFull"}')
asks("clips", clip("LAST", "35"), '200 {"clip":"C0020000"}')
asks("clips", clip("MORE", "36"), '409 {"code":56,"refused":"RegisterFull"}')
asks("offers", '{"clip":"C0000001","to":3}', '200 {"offer":9999}')
asks("offers", '{"clip":"C0000001","to":4}', '409 {"code":67,"refused":"OffersFull"}')
asks("offers/9999/withdraw", "{}", '200 {"offer":9999}')
shows("offers", offer_lines())
print("# a tape of five digits, and a number with zeros in front")
asks("tapes/10000/pull", "{}", '409 {"code":45,"refused":"NoTape"}')
asks("tapes/00001/pull", "{}", '404 {"code":404,"refused":"NotFound"}')
shows("clips", clip_lines("active "))
shows("vault", tape_lines())
asks("clips/20000/retire", "{}", '200 {"clip":"C0020000"}')
shows("clips", clip_lines("retired"))
