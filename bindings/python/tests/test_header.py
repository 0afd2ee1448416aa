"""The numbers, layouts and functions of the module against jichurpa.h."""

import ctypes
import re
import unittest
from ctypes import POINTER, c_char_p, c_size_t, c_uint8, c_uint16, c_uint32, c_uint64, c_void_p
from enum import IntEnum

from jichurpa import enums, library

from .support import HEADER, needs_header

# The enumeration of the module, and the beginning of its names in the header.
ENUMERATIONS: dict[str, tuple[type[IntEnum], str]] = {
    "jichurpa_result": (enums.Result, "JICHURPA_"),
    "jichurpa_answer": (enums.Answer, "JICHURPA_"),
    "jichurpa_refusal": (enums.Refusal, "JICHURPA_REFUSED_"),
    "jichurpa_took": (enums.Took, "JICHURPA_TOOK_"),
    "jichurpa_why": (enums.Why, "JICHURPA_WHY_"),
    "jichurpa_silent_why": (enums.SilentWhy, "JICHURPA_SILENT_"),
    "jichurpa_not_counted_why": (enums.NotCountedWhy, "JICHURPA_NOT_COUNTED_"),
    "jichurpa_kind": (enums.Kind, "JICHURPA_"),
    "jichurpa_wc_kind": (enums.WcKind, "JICHURPA_WC_"),
    "jichurpa_wc_status": (enums.WcStatus, "JICHURPA_WC_"),
    "jichurpa_state": (enums.State, "JICHURPA_"),
    "jichurpa_dump_why": (enums.DumpWhy, "JICHURPA_DUMP_"),
}

# What the module calls a macro of the header.
MACROS = {
    "ABI": enums.ABI,
    "NAME_BYTES": enums.NAME_BYTES,
    "MAX_DATAGRAM": enums.MAX_DATAGRAM,
    "MAX_REGION": enums.MAX_REGION,
    "MAX_CAPACITY": enums.MAX_CAPACITY,
    "MAX_DEPTH": enums.MAX_DEPTH,
    "MAX_MESSAGE": enums.MAX_MESSAGE,
    "MAX_QP_NUMBER": enums.MAX_QP_NUMBER,
    "MAX_PSN": enums.MAX_PSN,
    "PORT": enums.PORT,
    "LOCAL_WRITE": enums.Rights.LOCAL_WRITE,
    "REMOTE_WRITE": enums.Rights.REMOTE_WRITE,
    "REMOTE_READ": enums.Rights.REMOTE_READ,
    "REMOTE_ATOMIC": enums.Rights.REMOTE_ATOMIC,
    "SIGNALED": enums.Flags.SIGNALED,
    "FENCE": enums.Flags.FENCE,
    "HAS_IMM": enums.Flags.HAS_IMM,
}

# The size and alignment of the fields that the header has.
BASES = {
    "uint8_t": c_uint8,
    "uint16_t": c_uint16,
    "uint32_t": c_uint32,
    "uint64_t": c_uint64,
    "void *": c_void_p,
}


def without_comments(text: str) -> str:
    """C without its comments."""
    return re.sub(r"/\*.*?\*/", "", text, flags=re.DOTALL)


def spelled(argument: type) -> str:
    """How C spells the type of an argument."""
    plain = {
        c_uint32: "uint32_t",
        c_uint64: "uint64_t",
        c_size_t: "size_t",
        c_char_p: "const uint8_t *",
        c_void_p: "uint8_t *",
    }
    if argument in plain:
        # On most machines size_t is one of the numbers for Python; the header's own word is asked for then.
        return plain[argument]
    pointed = {POINTER(struct): f"{name} *" for name, struct in library.STRUCTS.items()}
    pointed |= {POINTER(c_uint32): "uint32_t *", POINTER(c_uint64): "uint64_t *"}
    return pointed[argument]


@needs_header
class Header(unittest.TestCase):
    def setUp(self) -> None:
        self.text = HEADER.read_text()
        self.code = without_comments(self.text)

    def test_enumerations(self) -> None:
        found = re.findall(r"typedef enum (\w+) \{(.*?)\} \1;", self.code, flags=re.DOTALL)
        self.assertEqual({name for name, _ in found}, set(ENUMERATIONS))
        for name, body in found:
            kind, prefix = ENUMERATIONS[name]
            values = {word.removeprefix(prefix): int(n) for word, n in re.findall(r"(\w+) = (\d+)", body)}
            self.assertEqual({member.name: member.value for member in kind}, values, name)

    def test_macros(self) -> None:
        found = dict(
            re.findall(r"#define JICHURPA_(\w+) (?:UINT32_C\()?(0x[0-9a-f]+|\d+)\)?\s*$", self.code, flags=re.M)
        )
        self.assertEqual({name: int(text, 0) for name, text in found.items()}, {k: int(v) for k, v in MACROS.items()})
        self.assertIn("#define JICHURPA_MAX_BASE (UINT64_C(1) << 63)", self.code)
        self.assertEqual(enums.MAX_BASE, 2**63)

    def test_structs(self) -> None:
        """Each field of each struct, at the offset that C gives it, and the whole size."""
        found = re.findall(r"typedef struct (\w+) \{(.*?)\} \1;", self.code, flags=re.DOTALL)
        self.assertEqual({name for name, _ in found}, set(library.STRUCTS))
        for name, body in found:
            struct = library.STRUCTS[name]
            fields = re.findall(r"([\w ]+?\*?)\s*(\w+)(\[JICHURPA_NAME_BYTES\])?;", body)
            self.assertEqual([word for _, word, _ in fields], self.names_of(struct), name)
            offset = 0
            for kind, word, array in fields:
                base = BASES.get(kind.strip()) or library.STRUCTS[kind.strip()]
                step = ctypes.alignment(base)
                offset = (offset + step - 1) // step * step
                self.assertEqual(getattr(struct, word).offset, offset, f"{name}.{word}")
                offset += ctypes.sizeof(base) * (enums.NAME_BYTES if array else 1)
            self.assertEqual(
                ctypes.sizeof(struct), -(-offset // ctypes.alignment(struct)) * ctypes.alignment(struct), name
            )

    def names_of(self, struct: type[ctypes.Structure]) -> list[str]:
        """The names of the fields, also of those that a class before it has."""
        return [field[0] for kind in reversed(struct.__mro__) for field in kind.__dict__.get("_fields_", [])]

    def test_told_sizes(self) -> None:
        """The sizes and offsets that comments of the header tell."""
        for name, body in re.findall(r"typedef struct (\w+) \{(.*?)\} \1;", self.text, flags=re.DOTALL):
            struct = library.STRUCTS[name]
            told = re.match(r"\s*/\* (\d+) bytes", body)
            self.assertIsNotNone(told, name)
            self.assertEqual(ctypes.sizeof(struct), int(told[1]), name)
            for word, offset in re.findall(r"(\w+);\s*/\* (\d+)(?::.*?)?\s*\*/", body, flags=re.DOTALL):
                self.assertEqual(getattr(struct, word).offset, int(offset), f"{name}.{word}")

    def test_functions(self) -> None:
        """Each function with its arguments."""
        found = re.findall(r"^jichurpa_result (jichurpa_\w+)\((.*?)\);", self.code, flags=re.DOTALL | re.M)
        self.assertEqual({name for name, _ in found}, set(library.PROTOTYPES))
        self.assertIn("uint32_t jichurpa_abi(void);", self.code)
        for name, arguments in found:
            kinds = [re.match(r"\s*(.*?)\w+\s*$", one, flags=re.DOTALL)[1].strip() for one in arguments.split(",")]
            wanted = [kind if "uint8_t" in kind else kind.removeprefix("const ") for kind in kinds]
            given = [spelled(kind) for kind in library.PROTOTYPES[name]]
            same = {"size_t", "uint64_t"} if c_size_t is c_uint64 else set()
            for one, other in zip(wanted, given, strict=True):
                self.assertTrue(one == other or {one, other} == same, f"{name}: {one} and {other}")
