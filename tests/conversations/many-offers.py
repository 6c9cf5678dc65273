"""A clip is lent to 70 channels, more than a page of the table of offers has rows."""

UMID = "060a2b340101010501010d201300000000112233445566778899aabbccddeeff"

print("plan 3,25,06:00:00:00,40")
print('POST /ch/3/tapes {"barcode":"T1","slot":1}')
print('200 {"tape":1}')
print(f'POST /ch/3/clips {{"frames":125,"in":"00:00:00:00","tape":1,"title":"NEWS","umid":"{UMID}"}}')
print('200 {"clip":"C0000001"}')
for number in range(1, 71):
    print(f'POST /ch/3/offers {{"clip":"C0000001","to":{100 + number}}}')
    print(f'200 {{"offer":{number}}}')
print("GET /ch/3/offers")
print("200")
for number in range(1, 71):
    print(f"{number:04} C0000001 {100 + number} open")
print("OFFERS 70")
