#!/usr/bin/env python3
"""Writes the tickets that the program listing_tests replays on the public entry.

    tools/listing_vectors.py [--out OUT] SAMPLES..

SAMPLES are folders of sample tickets, each NAME.in with its answer NAME.out; where a later folder has an answer of the same name, it is taken.
OUT is the crate's folder (default: crates/listing_tests beside this script's folder). Written are stdin, the tickets with their answers, and stdout, what the program must print. A ticket is a header
of 16 bytes, `LENGTH,LENGTH` and line feeds behind it, then the ticket's bytes and the answer's: a listing, or the line `refused,NUMBER,LINE`.

The samples are 2,183 tickets answered by the unchanged Rust: `lower_expression` of docs/src lowered them, and a program written from
documents 01 and 02 did the reading, the refusals' lines, the printing, the node of each instruction, and what a select that the Rust refuses
does with two bits for a byte. Their kinds, by name: typed and deep (rightly typed, nested), single (one
operation at width 8, 16, 32 or 64), singleany (widths 1 to 64), wild and small (readable, of any types), limits (near the limits), broken
(damaged text), large (up to document 02's limits: every fifth of them, for the file's length), records (selects over row records).

The tickets below come from document 01: its edges, the lines 'Compared only', its temptations, and what no sample meets; and from document
02's limits and selects. Each answer was
worked out by hand from the paper and the Rust that it points to; no program made it.
"""
import os
import sys

HEAD = "f,0,0/t,bool/t,pointer/"
BYTE = HEAD + "t,bits,8/s,1,0,1,36/v,0,0,2,0/"  # type 2 is bits 8, and variable 0 is one in storage 0

# (what it shows, ticket, answer); `/` stands for a line feed
CASES = []


def case(shows, ticket, answer):
    CASES.append((shows, ticket, answer))


def printed_case():
    case("the printed case",
         HEAD + "t,bits,9/s,2,2,1,36/v,0,0,2,0/p,variable,0/n,2,read,0/n,2,int,12/n,2,binary,0,0,1/",
         "storage,1,2,2,0,0,36/storage,2,3,0,1,1,2/i,add,1.0,0.0,#12,-,2,2/i,add,1.1,0.1,#0,2,-,2/i,and,1.1,1.1,#1,2/value,2,bytes,2,1.0,1.1/done,3,2,2/")


def edges():
    # 8-bit variable, constant rotate: by how much, and what for it
    for op, distance, lines in (
        (13, 0, "i,copy,1.0,0.0,2/"),
        (13, 8, "i,copy,1.0,0.0,2/"),
        (13, 4, "i,rol,1.0,0.0,2/i,rol,1.0,1.0,2/i,rol,1.0,1.0,2/i,rol,1.0,1.0,2/"),
        (13, 5, "i,ror,1.0,0.0,2/i,ror,1.0,1.0,2/i,ror,1.0,1.0,2/"),
        (14, 6, "i,rol,1.0,0.0,2/i,rol,1.0,1.0,2/"),
    ):
        case("constant rotate %d by %d" % (op, distance),
             BYTE + "p,variable,0/n,2,read,0/n,2,int,%d/n,2,binary,%d,0,1/" % (distance, op),
             "storage,1,1,0,0,0,36/" + lines + "value,2,bytes,1,1.0/done,%d,1,1/" % lines.count("/"))
    case("16-bit constant rotate: one shift",
         HEAD + "t,bits,16/s,2,2,1,36/v,0,0,2,0/p,variable,0/n,2,read,0/n,2,int,4/n,2,binary,13,0,1/",
         "storage,1,2,2,0,0,36/i,shift,3,16,2,1.0,1.1,2,0.0,0.1,2,#4,#0,2/value,2,bytes,2,1.0,1.1/done,1,1,1/")
    case("8-bit add: no carry is used, yet one is allocated",
         BYTE + "p,variable,0/n,2,read,0/n,2,int,1/n,2,binary,0,0,1/",
         "storage,1,1,0,0,0,36/storage,2,3,0,1,1,2/i,add,1.0,0.0,#1,-,-,2/value,2,bytes,1,1.0/done,1,2,2/")
    case("a constant too large for its bits 9: no mask",
         HEAD + "t,bits,9/n,2,int,65535/",
         "value,2,bytes,2,#255,#255/done,0,0,0/")
    case("Truncate 16 to 9: copied and masked",
         HEAD + "t,bits,16/t,bits,9/s,2,2,1,36/v,0,0,2,0/p,variable,0/n,2,read,0/n,3,convert,0,0/",
         "storage,1,2,2,0,0,36/i,copy,1.0,0.0,1/i,copy,1.1,0.1,1/i,and,1.1,1.1,#1,1/value,3,bytes,2,1.0,1.1/done,3,1,1/")
    case("Truncate 16 to 8: no instruction",
         HEAD + "t,bits,16/t,bits,8/s,2,2,1,36/v,0,0,2,0/p,variable,0/n,2,read,0/n,3,convert,0,0/",
         "value,3,bytes,1,0.0/done,0,0,0/")
    case("pointer plus 8-bit 255: the high byte adds #0",
         HEAD + "t,bits,8/s,2,2,1,36/v,0,0,1,0/p,variable,0/n,1,read,0/n,2,int,255/n,1,offset,0,1/",
         "storage,1,2,2,0,0,36/storage,2,3,0,4,1,2/i,add,1.0,0.0,#255,-,2,2/i,add,1.1,0.1,#0,2,-,2/value,1,bytes,2,1.0,1.1/done,2,2,2/")
    array = HEAD + "t,bits,8/t,array,2,3/s,2,3,1,36/v,0,0,3,0/p,variable,0/n,2,int,%d/p,element,0,0/n,2,read,1/"
    case("array of 3, index 2", array % 2, "value,2,bytes,1,0.2/done,0,0,0/")
    case("array of 3, index 3", array % 3, "refused,21,11/")
    case("select of Unit",
         HEAD + "t,unit/s,1,0,1,36/v,0,0,2,0/p,variable,0/p,variable,0/n,2,read,0/n,2,read,1/n,0,bool,1/n,2,select,0,1,2/",
         "refused,23,12/")


def compared_only():
    opaque = HEAD + "t,opaque,%d/s,2,1025,1,36/v,0,0,2,0/p,variable,0/n,2,read,0/"
    case("opaque 1,024, the largest type", opaque % 1024, "value,2,bytes,1024," + ",".join("0.%d" % i for i in range(1024)) + "/done,0,0,0/")
    case("opaque 1,025", opaque % 1025, "refused,6,4/")

    # node 0 is a bool, and each node behind it reinterprets the one before: the bit stays
    def bits(depth):
        return HEAD + "n,0,bool,1/" + "".join("n,0,convert,11,%d/" % i for i in range(depth - 1))
    case("depth 64 of nodes", bits(64), "value,0,bit,#1/done,0,0,0/")
    case("depth 65 of nodes", bits(65), "refused,9,68/")  # node 64, on line 4 + 64

    # each Not allocates a byte, and reads the one before
    def nots(depth):
        return HEAD + "t,bits,8/n,2,int,7/" + "".join("n,2,unary,1,%d/" % i for i in range(depth - 1))
    case("depth 64 of operations", nots(64),
         "".join("storage,%d,1,0,0,%d,36/" % (i, i) for i in range(63)) + "i,not,0.0,#7,1/"
         + "".join("i,not,%d.0,%d.0,%d/" % (i, i - 1, i + 1) for i in range(1, 63)) + "value,2,bytes,1,62.0/done,63,63,63/")
    case("depth 65 of operations", nots(65), "refused,9,69/")

    # places and nodes count together: a variable has depth 1, each offset of 0 from it one more, the read one more again
    def offsets(depth):
        steps = "".join("n,2,int,0/p,offset,%d,%d/" % (i, i) for i in range(depth - 2))
        return BYTE + "p,variable,0/" + steps + "n,2,read,%d/" % (depth - 2)
    case("depth 64 of places and a node", offsets(64), "value,2,bytes,1,0.0/done,0,0,0/")
    case("depth 65 of places and a node", offsets(65), "refused,9,134/")  # 7 lines, two for each of 63 offsets, the read


def temptations():
    # Lowering a select's condition first: it comes last.
    case("the condition's comparison stands behind both choices",
         BYTE + "p,variable,0/p,variable,0/p,variable,0/n,2,read,0/n,2,read,1/n,2,unary,1,1/n,2,read,2/n,2,unary,0,3/n,2,select,2,4,0/",
         "storage,1,1,0,0,0,36/storage,2,1,0,0,1,36/storage,3,3,0,3,2,2/storage,4,0,0,7,3,36/storage,5,1,0,0,4,36/"
         "i,not,1.0,0.0,2/i,sub,2.0,#0,0.0,-,-,4/i,compare,1,8,4,1,0.0,1,#0,5/i,selbyte,5.0,4,1.0,2.0,5/value,2,bytes,1,5.0/done,4,5,5/")
    case("a choice's refusal comes before the condition's, which stands on an earlier line",
         BYTE + "p,variable,1/n,2,f32,0/n,2,int,0/n,2,read,0/n,2,select,1,2,0/",
         "refused,20,10/")
    case("the condition's own refusal, where the choices have none",
         BYTE + "n,2,f32,0/n,2,int,0/n,2,int,0/n,2,select,1,2,0/",
         "refused,23,7/")

    # Adding a static's own offset in `staticaddress`: only the constant's is used.
    static = HEAD + "t,bits,8/s,2,16,%d,64/g,0,7,2,0/"
    case("the address of a static at 7 with a constant 3: 3",
         static % 0 + "n,1,staticaddress,0,3/",
         "storage,1,2,2,0,0,36/i,address,1.0,1.1,0,3,0/value,1,bytes,2,1.0,1.1/done,1,1,1/")
    case("the same of a storage that a function owns: narrowed too",
         static % 1 + "n,1,staticaddress,0,3/",
         "storage,1,2,2,0,0,36/narrowed,0/i,address,1.0,1.1,0,3,0/value,1,bytes,2,1.0,1.1/done,1,1,1/")
    case("the address of the static as a place has its own offset",
         static % 0 + "p,static,0/n,1,address,0/",
         "storage,1,2,2,0,0,36/i,address,1.0,1.1,0,7,0/value,1,bytes,2,1.0,1.1/done,1,1,1/")

    # Refusing the address of an offset into a packed bool: the Rust accepts it; the bool itself is 21.
    packed = HEAD + "t,bits,8/s,0,0,%d,36/v,0,0,0,1/p,variable,0/"
    case("the address of an offset into a packed bool",
         packed % 1 + "n,2,int,3/p,offset,0,0/n,1,address,1/",
         "storage,1,2,2,0,0,36/narrowed,0/i,address,1.0,1.1,0,3,1/value,1,bytes,2,1.0,1.1/done,1,1,1/")
    case("the same where the program owns it: nothing narrowed",
         packed % 0 + "n,2,int,0/p,offset,0,0/n,1,address,1/",
         "storage,1,2,2,0,0,36/i,address,1.0,1.1,0,0,1/value,1,bytes,2,1.0,1.1/done,1,1,1/")
    case("the address of the packed bool itself", packed % 1 + "n,1,address,0/", "refused,21,8/")
    case("the address of a packed bool that is static", HEAD + "s,0,0,0,2/g,0,0,0,1/n,1,staticaddress,0,0/", "refused,21,6/")

    # Turning a bit into bytes on Reinterpret: the bit stays, and a later byte use is 24.
    case("a bool constant reinterpreted as bits 8", HEAD + "t,bits,8/n,0,bool,1/n,2,convert,11,0/", "value,2,bit,#1/done,0,0,0/")
    case("a packed bool reinterpreted as bits 8", packed % 1 + "n,0,read,0/n,2,convert,11,0/", "value,2,bit,0/done,0,0,0/")
    case("a byte use of it: Not", HEAD + "t,bits,8/n,0,bool,1/n,2,convert,11,0/n,2,unary,1,1/", "refused,24,7/")
    case("a byte use of it: the right side of an add",
         HEAD + "t,bits,8/n,0,bool,1/n,2,convert,11,0/n,2,int,1/n,2,binary,0,2,1/",
         "refused,24,8/")
    case("a bit use of it: a select's condition needs no comparison",
         HEAD + "t,bits,8/n,2,int,1/n,2,int,2/n,0,bool,1/n,2,convert,11,2/n,2,select,0,1,3/",
         "storage,0,1,0,0,0,36/i,selbyte,0.0,#1,#1,#2,4/value,2,bytes,1,0.0/done,1,1,1/")

    # Looking into a float operation's operands: it refuses 24 at once.
    case("a float operation over a place that is not there", HEAD + "t,float,32/p,variable,9/n,2,read,0/n,2,funary,0/", "refused,24,7/")
    case("one over two operands that are refused each",
         HEAD + "t,float,64/p,static,9/n,2,read,0/n,2,f64,0/n,2,fbinary,0,1/",
         "refused,24,8/")
    case("the operand's refusal is met where anything else looks into it",
         HEAD + "t,float,32/p,variable,9/n,2,read,0/n,2,unary,0,0/",
         "refused,20,6/")

    # Reading all bytes of a constant rotate distance over 16 bytes: the port takes the lowest byte.
    # 18446744073709551365 is 5 in the lowest byte and 255 in the seven others; ZeroExtend makes it as long as the type.
    distance = HEAD + "t,bits,8/t,bits,64/t,opaque,%d/s,1,0,1,36/v,0,0,2,0/p,variable,0/n,2,read,0/n,3,int,18446744073709551365/n,4,convert,1,1/n,2,binary,%d,0,2/"
    three = "storage,1,1,0,0,0,36/i,%s,1.0,0.0,3/i,%s,1.0,1.0,3/i,%s,1.0,1.0,3/value,2,bytes,1,1.0/done,3,1,1/"
    for size in (16, 17, 1024):
        case("a constant distance of %d bytes, RotateLeft" % size, distance % (size, 13), three % ("ror", "ror", "ror"))
        case("a constant distance of %d bytes, RotateRight" % size, distance % (size, 14), three % ("rol", "rol", "rol"))


def differences():
    # Where the Rust panics, overflows or has no bound, and the last ticket before it.
    case("25: a pointer base of one byte", HEAD + "t,bits,8/n,2,int,0/n,2,int,0/n,1,offset,0,1/", "refused,25,7/")
    case("a pointer base of two bytes of any type",
         HEAD + "t,bits,9/n,2,int,258/n,2,int,3/n,1,offset,0,1/",
         "storage,0,2,2,0,0,36/storage,1,3,0,4,1,2/i,add,0.0,#2,#3,-,1,2/i,add,0.1,#1,#0,1,-,2/value,1,bytes,2,0.0,0.1/done,2,2,2/")
    case("26: an integer constant of 17 bytes", HEAD + "t,opaque,17/n,2,int,0/", "refused,26,5/")
    case("an integer constant of 16 bytes",
         HEAD + "t,opaque,16/n,2,int,258/",
         "value,2,bytes,16,#2,#1,#0,#0,#0,#0,#0,#0,#0,#0,#0,#0,#0,#0,#0,#0/done,0,0,0/")
    far = HEAD + "s,1,0,0,0/v,0,65535,0,0/p,variable,0/n,0,int,%d/p,offset,0,0/n,0,read,1/"
    case("27: a place's offset of 65,536", far % 1, "refused,27,9/")
    case("27: an offset that overflows 64 bits", far % (2 ** 64 - 1), "refused,27,9/")
    case("a place's offset of 65,535", far % 0, "storage,1,0,0,8,0,36/i,bytetobit,1,0.65535,1/value,0,bit,1/done,1,1,1/")


def text_lengths():
    # Refusal 1 is decided by the length alone. What fills the text up is structs of units, of different lengths, which have no size.
    fixed = "t,unit/" + "".join("t,struct" + ",2" * k + "/" for k in (4095, 4094, 4093, 4092, 4091, 4090, 4078))
    for size, answer in ((65536, "value,1,bytes,2,#0,#0/done,0,0,0/"), (65537, "refused,1,0/")):
        rest = size - len(HEAD + fixed + "t,struct/n,1,null/")
        head = HEAD.replace("f,0,0", "f,10,0") if rest % 2 else HEAD  # a field is two bytes
        case("a text of %d bytes" % size, head + fixed + "t,struct" + ",2" * (rest // 2) + "/n,1,null/", answer)


def numbers(n):
    return "".join(",%d" % i for i in range(n))


def limits():
    # Document 02's limits: the last ticket within and the first beyond; no instruction is made.
    def nodes(n):
        return HEAD + "n,1,null/" * (n - 1) + "n,1,aggregate" + numbers(n - 1) + "/"
    case("900 nodes", nodes(900), "value,1,aggregate,899/" + "value,1,bytes,2,#0,#0/" * 899 + "done,0,0,0/")
    case("1,024 nodes", nodes(1024), "value,1,aggregate,1023/" + "value,1,bytes,2,#0,#0/" * 1023 + "done,0,0,0/")
    case("1,025 nodes", nodes(1025), "refused,8,1028/")  # 3 lines, 1,024 nodes

    # Two places for each read of a Unit.
    def places(n):
        pairs = "".join("p,variable,0/p,field,%d,0/n,2,read,%d/" % (2 * i, 2 * i + 1) for i in range(n // 2))
        rest = "p,variable,1/n,2,read,%d/" % (n - 1) if n % 2 else ""
        return HEAD + "t,unit/t,struct,2/s,1,0,1,36/v,0,0,3,0/v,0,0,2,0/" + pairs + rest + "n,2,aggregate" + numbers((n + 1) // 2) + "/"
    case("1,024 places", places(1024), "value,2,aggregate,512/" + "value,2,unit/" * 512 + "done,0,0,0/")
    case("1,025 places", places(1025), "refused,8,1545/")  # 8 lines, 1,024 places and their 512 nodes

    # Reads of 1,024 bytes each, and of what is left.
    def sizes(n):
        reads = "".join("p,variable,%d/n,%d,read,%d/" % (i // 8, 3 + i // 8, i) for i in range(9))
        return HEAD + "t,unit/t,opaque,1024/t,opaque,%d/s,2,1024,1,36/v,0,0,3,0/v,0,0,4,0/" % (n - 8192) + reads + "n,2,aggregate" + numbers(9) + "/"
    whole = "value,3,bytes,1024," + ",".join("0.%d" % i for i in range(1024)) + "/"
    case("sizes of 8,192", sizes(8192), "value,2,aggregate,9/" + whole * 8 + "value,4,bytes,0/done,0,0,0/")
    case("sizes of 8,193", sizes(8193), "refused,10,27/")  # 9 lines, two for each of 8 reads, a place

    # Constants: one of a weight that is the node's alone is B2 of document 02's readings.
    def weights(n):
        return HEAD + "t,unit/t,array,2,4000/n,3,null/n,3,null/" + "n,2,null/" * (n - 8003) + "n,2,aggregate" + numbers(n - 8001) + "/"
    case("weights of 8,192", weights(8192), "value,2,aggregate,191/" + "value,3,bytes,2,#0,#0/" * 2 + "value,2,bytes,2,#0,#0/" * 189 + "done,0,0,0/")
    case("weights of 8,193", weights(8193), "refused,10,198/")  # 7 lines, 190 nodes
    case("one type's weight of 4,096 counts in the sum", HEAD + "t,unit/t,array,2,4095/n,2,null/n,3,aggregate,0/",
         "value,3,aggregate,1/value,2,bytes,2,#0,#0/done,0,0,0/")
    case("8 before 10 in a line", HEAD + "t,opaque,8/" + "n,2,null/" * 1025, "refused,8,1029/")
    case("10 in a line before 8", HEAD + "t,opaque,9/" + "n,2,null/" * 1025, "refused,10,915/")


def selects():
    # Two bits for a byte: a bit storage of purpose 9, chosen into, and it becomes the byte.
    case("two bits for the first byte of a pointer", HEAD + "n,1,bool,1/n,1,bool,0/n,1,bool,1/n,1,select,0,1,2/",
         "storage,0,2,2,0,0,36/storage,1,0,0,9,1,36/i,selbit,1,#1,#1,#0,3/i,bittobyte,0.0,1,3/value,1,bytes,2,0.0,0.1/done,2,2,2/")
    case("a record of a bool", HEAD + "t,struct,0/n,0,bool,1/n,2,aggregate,0/n,0,bool,0/n,2,aggregate,2/n,0,bool,1/n,2,select,1,3,4/",
         "storage,0,1,0,0,0,36/storage,1,0,0,9,1,36/storage,2,0,0,8,2,36/i,selbit,1,#1,#1,#0,5/i,bittobyte,0.0,1,5/i,bytetobit,2,0.0,5/"
         "value,2,aggregate,1/value,0,bit,2/done,3,3,3/")
    case("each pair has its own bit, and is whole before the next",
         HEAD + "t,struct,0,0/n,0,bool,1/n,0,bool,0/n,2,aggregate,0,1/n,0,bool,0/n,0,bool,1/n,2,aggregate,3,4/n,0,bool,1/n,2,select,2,5,6/",
         "storage,0,2,2,0,0,36/storage,1,0,0,9,1,36/storage,2,0,0,9,2,36/storage,3,0,0,8,3,36/storage,4,0,0,8,4,36/"
         "i,selbit,1,#1,#1,#0,7/i,bittobyte,0.0,1,7/i,selbit,2,#1,#0,#1,7/i,bittobyte,0.1,2,7/i,bytetobit,3,0.0,7/i,bytetobit,4,0.1,7/"
         "value,2,aggregate,2/value,0,bit,3/value,0,bit,4/done,6,5,5/")
    case("no record: bits 8 made of bits", HEAD + "t,bits,8/n,0,bool,1/n,2,convert,11,0/n,0,bool,0/n,2,convert,11,2/n,0,bool,1/n,2,select,1,3,4/",
         "storage,0,1,0,0,0,36/storage,1,0,0,9,1,36/i,selbit,1,#1,#1,#0,5/i,bittobyte,0.0,1,5/value,2,bytes,1,0.0/done,2,2,2/")
    case("an unlike pair past the last byte is not looked at",
         HEAD + "t,bits,8/t,struct,0/n,0,bool,1/n,0,bool,1/n,3,aggregate,0,1/n,0,bool,0/n,2,int,7/n,3,aggregate,3,4/n,0,bool,1/n,3,select,2,5,6/",
         "storage,0,1,0,0,0,36/storage,1,0,0,9,1,36/storage,2,0,0,8,2,36/i,selbit,1,#1,#1,#0,7/i,bittobyte,0.0,1,7/i,bytetobit,2,0.0,7/"
         "value,3,aggregate,1/value,0,bit,2/done,3,3,3/")
    case("an unlike pair behind one of bits",
         HEAD + "n,0,bool,1/n,0,bool,1/n,1,aggregate,0,1/n,0,bool,0/n,1,null/n,1,aggregate,3,4/n,0,bool,1/n,1,select,2,5,6/", "refused,24,11/")
    case("bits that meet the bytes of null",
         HEAD + "t,struct,0,0/s,2,2,1,36/v,0,0,2,0/p,variable,0/n,2,read,0/n,2,null/n,0,bool,1/n,2,select,1,0,2/", "refused,24,11/")
    case("bytes for a bit", HEAD + "n,0,null/n,0,null/n,0,bool,1/n,0,select,0,1,2/", "refused,24,7/")
    case("records of no size", HEAD + "t,struct/n,2,aggregate/n,2,aggregate/n,0,bool,1/n,2,select,0,1,2/", "refused,23,8/")
    case("24 at a later node",
         HEAD + "t,bits,8/t,struct,0/n,0,bool,1/n,3,aggregate,0/n,0,bool,0/n,3,aggregate,2/n,0,bool,1/n,3,select,1,3,4/n,2,unary,1,5/", "refused,24,12/")
    case("a condition in bytes", HEAD + "t,bits,8/t,struct,0/n,0,bool,1/n,3,aggregate,0/n,0,bool,0/n,3,aggregate,2/n,2,int,3/n,3,select,1,3,4/",
         "storage,0,0,0,7,0,36/storage,1,1,0,0,1,36/storage,2,0,0,9,2,36/storage,3,0,0,8,3,36/"
         "i,compare,1,8,0,1,#3,1,#0,5/i,selbit,2,0,#1,#0,5/i,bittobyte,1.0,2,5/i,bytetobit,3,1.0,5/value,3,aggregate,1/value,0,bit,3/done,4,4,4/")


def taken(name, count):
    """Of the large ones every fifth."""
    return not name.startswith("large") or count % 5 == 0


def answers(folders):
    """The pairs of the samples' folders, by name."""
    tickets, listings = {}, {}
    for folder in folders:
        for name in sorted(os.listdir(folder)):
            into = {".in": tickets, ".out": listings}.get(os.path.splitext(name)[1])
            if into is not None:
                with open(os.path.join(folder, name), "rb") as f:
                    into[os.path.splitext(name)[0]] = f.read()
    return [(tickets[name], listings[name]) for count, name in enumerate(sorted(tickets)) if taken(name, count)]


def main():
    args = sys.argv[1:]
    here = os.path.dirname(os.path.dirname(os.path.abspath(__file__)))
    folder = os.path.join(here, "crates", "listing_tests")
    if args[:1] == ["--out"]:
        folder, args = args[1], args[2:]
    if not args:
        sys.exit(__doc__)
    for group in (printed_case, edges, compared_only, temptations, differences, text_lengths, limits, selects):
        group()
    pairs = [(t.replace("/", "\n").encode(), a.replace("/", "\n").encode()) for _, t, a in CASES]
    pairs += answers(args)
    os.makedirs(folder, exist_ok=True)
    with open(os.path.join(folder, "stdin"), "wb") as f:
        for ticket, answer in pairs:
            f.write((b"%d,%d" % (len(ticket), len(answer))).ljust(16, b"\n") + ticket + answer)
    with open(os.path.join(folder, "stdout"), "w") as f:
        f.write("%d tickets, 0 failed\n" % len(pairs))
    print("%d tickets from the documents, %d samples" % (len(CASES), len(pairs) - len(CASES)))


if __name__ == "__main__":
    main()
