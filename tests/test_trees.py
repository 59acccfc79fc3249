"""Protected files of an independent writer, of one to three levels of hash-tree nodes."""
import os

from harness import KEY, PROGRAM, Skip, decrypt, encrypt, of_program, put, same, traced

try:
    import cryptography
except ImportError:
    cryptography = None
else:
    from protected import DATA_CHILDREN, FIRST, NODE, TREE_CHILDREN, counts, data_place, first_node, protected, tree_place

PIECE = 32_768
NONCE = bytes(range(32))


def content_of(size):
    """Bytes that differ from place to place."""
    words = b"".join(i.to_bytes(4, "big") for i in range(size // 4 + 1))
    return words[:size]


def nodes_of(content):
    if cryptography is None:
        raise Skip("Python's package cryptography is not installed")
    return protected(KEY, b"out.pf", NONCE, content)


def three_levels():
    """One byte more than the data nodes of the root, its children and their first child can have."""
    return content_of(FIRST + NODE * DATA_CHILDREN * (1 + TREE_CHILDREN + 1) + 1) if cryptography else b""


def test_files_of_each_depth_are_decrypted():
    sizes = [0, 1, 3071, 3072, 3073, 7168, 7169, 396_288, 396_289, len(three_levels())]
    for size in sizes:
        content = content_of(size)
        put("out.pf", b"".join(nodes_of(content)))
        ran = decrypt()
        same((ran.status, ran.log), (0, ""), f"{size} bytes")
        same(ran.out == content, True, f"the content of {size} bytes")


def test_what_was_encrypted_decrypts_at_each_size():
    # one node more than the dirty ones that a session may have is sealed in several versions
    for size, length in ((0, 4096), (1, 4096), (3072, 4096), (3073, 12_288), (396_288, 401_408), (396_289, 409_600), (1_000_000, 1_015_808)):
        content = content_of(size)
        put("in", content)
        ran = encrypt()
        same((ran.status, ran.out, ran.log), (0, b"", ""), f"{size} bytes")
        same((os.path.getsize("out.pf"), os.path.exists("out.pf.new")), (length, False), f"the file of {size} bytes")
        ran = decrypt()
        same((ran.status, ran.log), (0, ""), f"{size} bytes")
        same(ran.out == content, True, f"the content of {size} bytes")


def first_touched(node):
    """The place in the content of the first byte that is read by way of the node."""
    if node == 0:
        return 0
    number, m = (node - 1) % (DATA_CHILDREN + 1), (node - 1) // (DATA_CHILDREN + 1)
    d = DATA_CHILDREN * m + max(number - 1, 0)
    return 0 if node == 1 else FIRST + NODE * d


def test_damage_at_each_level_is_named_behind_the_pieces_before_it():
    content = three_levels()
    nodes = nodes_of(content)
    data, trees = counts(len(content))
    levels = [0, tree_place(0), tree_place(1), tree_place(TREE_CHILDREN + 1), tree_place(trees - 1)]
    for node in [*levels, data_place(0), data_place(DATA_CHILDREN), data_place(data - 1)]:
        for kind in "tag", "short":
            if kind == "tag":
                broken = bytearray(nodes[node])
                broken[1000] ^= 1
                put("out.pf", b"".join(nodes[:node]) + broken + b"".join(nodes[node + 1 :]))
            else:
                put("out.pf", b"".join(nodes[:node]) + nodes[node][:4095])
            ran = decrypt()
            front = content[: first_touched(node) // PIECE * PIECE]
            if kind == "tag":
                same((ran.status, ran.log), (1, f"damaged node {node} tag\n"), f"node {node} changed")
                same(ran.out == front, True, f"the pieces before node {node}")
            else:
                same((ran.status, ran.log.startswith("damaged node ")), (1, True), f"node {node} short ({ran.log})")
                same(content.startswith(ran.out) and len(ran.out) <= len(front), True, f"a front before node {node}")


def test_nodes_that_change_places_are_damage():
    content = content_of(FIRST + 8 * NODE)
    nodes = nodes_of(content)
    nodes[2], nodes[3] = nodes[3], nodes[2]
    put("out.pf", b"".join(nodes))
    ran = decrypt()
    same((ran.status, ran.log, ran.out), (1, "damaged node 2 tag\n", b""), "nodes 2 and 3 exchanged")


def test_metadata_of_too_large_a_content_are_damage():
    if cryptography is None:
        raise Skip("Python's package cryptography is not installed")
    for size, said in ((1 << 32, "damaged node 1 short"), ((1 << 32) + 1, "damaged node 0 text")):
        put("out.pf", first_node(KEY, b"out.pf", NONCE, size, b"", bytes(32)))
        ran = decrypt()
        same((ran.status, ran.log, ran.out), (1, said + "\n", b""), f"{size} bytes")


def test_calls_that_fail_in_mid_stream_leave_the_pieces_before():
    content = content_of(FIRST + NODE * DATA_CHILDREN + 1)
    put("out.pf", b"".join(nodes_of(content)))
    words = [PROGRAM, "decrypt", "-w", "key", "-i", "out.pf"]
    ran, lines = traced(words)
    same((ran.status, ran.out == content), (0, True), "with no error")
    writes = of_program(lines, "write")
    same(writes, -(-len(content) // PIECE), "writes")
    of_file = ["-P", os.path.abspath("out.pf")]
    _, lines = traced(words, *of_file)
    reads = of_program(lines, "pread64")
    before = 0
    for at in [*range(1, 20), reads - 1, reads]:
        ran, _ = traced(words, *of_file, "-e", f"inject=pread64:error=EIO:when={at}")
        same((ran.status, ran.log), (4, "host fault\n"), f"read {at}: {ran}")
        same((content.startswith(ran.out), len(ran.out) % PIECE, len(ran.out) >= before), (True, 0, True), f"pieces before read {at}")
        before = len(ran.out)
    same(before, len(content) // PIECE * PIECE, "the pieces before the last node")
    for at in range(1, writes + 1):
        ran, _ = traced(words, "-e", f"inject=write:error=EIO:when={at}")
        same((ran.status, ran.log, ran.out == content[: PIECE * (at - 1)]), (7, "stream fault\n", True), f"write {at}")
