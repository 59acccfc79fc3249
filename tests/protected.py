"""An independent writer of protected files, after docs/FORMAT.md, with Python's package `cryptography`."""
import struct

NODE = 4096
FIRST = 3072
DATA_CHILDREN, TREE_CHILDREN = 96, 32
ENTRY = 32


def data_place(d):
    """The node of the d-th data node."""
    return 2 + d + d // DATA_CHILDREN


def tree_place(m):
    """The node of the m-th hash-tree node."""
    return 1 + (DATA_CHILDREN + 1) * m


def counts(size):
    """How many data nodes and hash-tree nodes a content has."""
    data = -(-max(size - FIRST, 0) // NODE)
    return data, -(-data // DATA_CHILDREN)


def metadata_key(user, nonce):
    from cryptography.hazmat.primitives.ciphers.algorithms import AES
    from cryptography.hazmat.primitives.cmac import CMAC

    label = b"SGX-PROTECTED-FS-METADATA-KEY".ljust(64, b"\0")
    cmac = CMAC(AES(user))
    cmac.update(struct.pack("<I", 1) + label + nonce + struct.pack("<I", 128))
    return cmac.finalize()


def sealed(key, text):
    """The ciphertext and the tag, under a zero IV."""
    from cryptography.hazmat.primitives.ciphers.aead import AESGCM

    both = AESGCM(key).encrypt(bytes(12), text, None)
    return both[:-16], both[-16:]


def first_node(user, path, nonce, size, content, root):
    """The metadata node of a content that has this size and begins so."""
    secret = path.ljust(768, b"\0") + struct.pack("<Q", size) + root + content[:FIRST].ljust(FIRST, b"\0")
    text, tag = sealed(metadata_key(user, nonce), secret)
    return b"GRPFTOOL\1\0" + nonce + tag + b"\0" + text + bytes(157)


def protected(user, path, nonce, content):
    """The nodes of a protected file. A node's key is its number."""
    data, trees = counts(len(content))
    nodes, texts = {}, [bytearray(NODE) for _ in range(trees)]

    def seal(number, text):
        key = number.to_bytes(16, "big")
        nodes[number], tag = sealed(key, text)
        return key + tag

    for d in range(data):
        text = content[FIRST + NODE * d : FIRST + NODE * (d + 1)].ljust(NODE, b"\0")
        place = ENTRY * (d % DATA_CHILDREN)
        texts[d // DATA_CHILDREN][place : place + ENTRY] = seal(data_place(d), text)
    root = bytes(ENTRY)
    for m in reversed(range(trees)):
        entry = seal(tree_place(m), bytes(texts[m]))
        if m == 0:
            root = entry
        else:
            place = ENTRY * (DATA_CHILDREN + (m - 1) % TREE_CHILDREN)
            texts[(m - 1) // TREE_CHILDREN][place : place + ENTRY] = entry
    first = first_node(user, path, nonce, len(content), content, root)
    return [first] + [nodes[number] for number in range(1, 1 + data + trees)]
