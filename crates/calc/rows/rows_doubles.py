"""Rows of calc's test: how a double is typed and shown. What each gives is written out."""

from document import ALL
from lanes import bits

# what stands after `lane 0 0 0 0 : 0 : 0 :`, so from place 22 on, and what is shown of it or said of the line
DOUBLES = [
    # whole numbers, to the nearest double, and of two that are as near the even one
    (" 0", "0"), ("0", "0"), (" 1", "1"), (" 00012 ", "12"), (" 12\r", "12"), (" 9007199254740991", "9007199254740991"),
    (" 9007199254740992", "9007199254740992"), (" 9007199254740993", "9007199254740992"), (" 9007199254740994", "9007199254740994"),
    (" 9007199254740995", "9007199254740996"), (" 9007199254740997", "9007199254740996"), (" 18014398509481986", "18014398509481984"),
    (" 18014398509481987", "18014398509481988"), (" 18014398509481990", "18014398509481992"), (" 9223372036854775808", "9223372036854775808"),
    (" 9223372036854776832", "9223372036854775808"), (" 9223372036854776833", "9223372036854777856"), (" 9223372036854778880", "9223372036854779904"),
    (" 18446744073709549568", "18446744073709549568"), (" 18446744073709550591", "18446744073709549568"),
    # 2^64 is no longer shown as a number
    (" 18446744073709550592", "bits %d" % bits(2.0**64)), (" %d" % ALL, "bits %d" % bits(2.0**64)),
    # signs
    (" minus 0", "minus 0"), (" minus 1", "minus 1"), ("minus 1", "minus 1"), (" minus1", "minus 1"),
    (" minus  18446744073709549568 ", "minus 18446744073709549568"), (" minus %d" % ALL, "minus bits %d" % bits(2.0**64)), (" minus\r3", "minus 3"),
    # bits
    (" bits 0", "0"), (" bits 1", "bits 1"), (" bits 4607182418800017408", "1"), (" bits4607182418800017408", "1"),
    (" bits 4599676419421066581", "bits 4599676419421066581"), (" bits 4607182418800017409", "bits 4607182418800017409"),
    (" minus bits 1", "minus bits 1"), (" bits 9223372036854775808", "minus 0"), (" minus bits 9223372036854775808", "0"),
    (" bits 13830554455654793216", "minus 1"), (" minus bits 13830554455654793216", "1"), (" bits 9223372036854775809", "minus bits 1"),
    (" bits 4503599627370496", "bits 4503599627370496"), (" bits 9218868437227405311", "bits 9218868437227405311"),
    (" bits 9218868437227405312", "bits 9218868437227405312"), (" bits 18442240474082181120", "minus bits 9218868437227405312"),
    (" bits 4895412794951729151", "18446744073709549568"), (" bits 4895412794951729152", "bits 4895412794951729152"),
    (" bits 4602678819172646912", "bits 4602678819172646912"),
    # some NaN
    (" nan", "nan"), ("nan", "nan"), (" nan ", "nan"), (" minus nan", "nan"), (" bits 9218868437227405313", "nan"),
    (" bits 9221120237041090560", "nan"), (" bits %d" % ALL, "nan"), (" minus bits %d" % ALL, "nan"), (" bits 18442240474082181121", "nan"),
    (" 0 over 0", "nan"), (" minus 0 over 0", "nan"),
    # quotients
    (" 1 over 3", "bits 4599676419421066581"), (" 1over3", "bits 4599676419421066581"), (" minus 1 over 3", "minus bits 4599676419421066581"),
    (" 6 over 3", "2"), (" 0 over 3", "0"), (" minus 0 over 3", "minus 0"), (" 1 over 0", "bits 9218868437227405312"),
    (" minus 1 over 0", "minus bits 9218868437227405312"), (" 1 over 2", "bits 4602678819172646912"), (" 1 over 49", "bits 4581539473982948665"),
    (" 1 over %d" % ALL, "bits %d" % bits(2.0**-64)), (" %d over 1" % ALL, "bits %d" % bits(2.0**64)), (" %d over %d" % (ALL, ALL), "1"),
    # both are rounded before they are divided
    (" 9007199254740993 over 9007199254740992", "1"), (" 9007199254740994 over 9007199254740993", "bits 4607182418800017409"),
    (" 1 over 65535", "bits 4535124893482614800"), (" 9007199254740991 over 3", "bits %d" % bits(9007199254740991 / 3)),
    (" 10 over 4", "bits %d" % bits(2.5)), (" 0001 over 0002", "bits 4602678819172646912"),
    # what is no double
    ("", "what? 22"), (" ", "what? 23"), (" # 1", "what? 23"), (" minus", "what? 28"), (" minus ", "what? 29"), (" minus minus 1", "what? 29"),
    (" minusx 1", "what? 23"), (" mınus 1", "what? 23"), (" Minus 1", "what? 23"), (" -1", "what? 23"), (" 1.5", "what? 24"), (" .5", "what? 23"),
    (" 1e5", "what? 24"), (" inf", "what? 23"), (" x", "what? 23"), (" 1 2", "what? 25"), (" %d" % (ALL + 1), "too large 23"),
    (" 1 %d" % (ALL + 1), "too large 25"), (" minus %d" % (ALL + 1), "too large 29"), (" minus 1 2", "what? 31"), (" minus , 1", "what? 29"),
    (" nan 1", "what? 27"), (" nan1", "what? 26"), (" nan nan", "what? 27"), (" nan,", "what? 26"), (" nans", "what? 23"),
    (" minus nan 1", "what? 33"), (" nan over 1", "what? 27"), (" bits", "what? 27"), (" bits ", "what? 28"), (" bits x", "what? 28"),
    (" bits 1 2", "what? 30"), (" bits -1", "what? 28"), (" bits %d" % (ALL + 1), "too large 28"), (" bits 1 over 2", "what? 30"),
    (" bit 1", "what? 23"), (" bitsx 1", "what? 23"), (" bits minus 1", "what? 28"), (" bits nan", "what? 28"), (" 1 over", "what? 29"),
    (" 1 over ", "what? 30"), (" 1 over x", "what? 30"), (" 1 over 2 3", "what? 32"), (" 1 over 2 over 3", "what? 32"),
    (" 1 over minus 2", "what? 30"), (" 1 over bits 2", "what? 30"), (" 1 over nan", "what? 30"), (" 1 over %d" % (ALL + 1), "too large 30"),
    (" 1 2 over 3", "what? 25"), (" 1, over 3", "what? 24"), (" over 3", "what? 23"), (" minus over 3", "what? 29"), (" 1 ove 3", "what? 25"),
    (" 1 overx 3", "what? 25"), (" 1 minus", "what? 25"), (" 1 but 0 1", "what? 25"), (" all 1 1", "what? 23"), (" 1 Over 3", "what? 25"),
    (" %d over x" % (ALL + 1), "too large 23"), (" 1 over 2,", "what? 31"), (" 1 nan", "what? 25"),
]


def rows(sheet):
    sheet.group("reading: doubles")
    before = "lane 0 0 0 0 : 0 : 0 :"
    assert len(before) == 22
    for text, gives in DOUBLES:
        sheet.type(before + text, "lane 0 0 0 0 : 0 : 0 : " + gives if gives[0] in "0123456789bmn" else gives)
    sheet.group("reading: the three doubles of a lane, in order; what can't be read leaves it")
    for line, gives in [
        ("lane 1 2 3 4 : 5 : minus 6 : 7 over 2", "lane 1 2 3 4 : 5 : minus 6 : bits 4615063718147915776"), ("lane 1 2 3 4 : x : 1 : 2", "what? 15"),
        ("lane 1 2 3 4 : 1 : x : 2", "what? 19"), ("lane 1 2 3 4 : 1 : 2 : x", "what? 23"), ("lane 1 2 3 4 : : 2 : x", "what? 15"),
        ("lane 1 2 3 4 : 1 2 : x : 3", "what? 17"), ("lane 1 2 3 4 : 1 : : x", "what? 19"),
        ("lane", "lane 1 2 3 4 : 5 : minus 6 : bits 4615063718147915776"),
        ("lane %d %d %d %d : 0 : 0 : 0" % (ALL, ALL, ALL, ALL), "lane %d %d %d %d : 0 : 0 : 0" % (ALL, ALL, ALL, ALL)),
        ("lane %d 0 0 0 : 0 : 0 : 0" % (ALL + 1), "too large 5"), ("make 3 2 5 2", "lane 3 2 5 2 : 3 : 32 : bits 4599676419421066581"),
        ("make 3 2 5 4", "refused 5 0"), ("lane", "lane 3 2 5 2 : 3 : 32 : bits 4599676419421066581"),
        ("lane 3 2 5 2 : bits 4613937818241073152 : bits 4629700416936869888 : 1 over 3", "lane 3 2 5 2 : 3 : 32 : bits 4599676419421066581"),
        ("lanesum : 1 2 : 2 2", "word 4290"), ("lanereduce :", "what? 12"), ("lanereduce : 4290 1", "what? 18"),
        ("lanereduce : minus bits 9223372036854775808", "word 0"), ("lanereduce : 12870 over 3", "word 1026"),
        ("lanereduce : bits 4661453823104057344", None),
    ]:
        sheet.type(line, gives)
