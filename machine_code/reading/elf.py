"""Reads a linked ELF file, with pyelftools."""

import io

from elftools.elf.constants import P_FLAGS, SH_FLAGS
from elftools.elf.elffile import ELFFile
from elftools.elf.enums import ENUM_DT_FLAGS

from reading.image import AARCH64, PREFIX, X86_64, Image, Mapping

MACHINES = {"EM_X86_64": X86_64, "EM_AARCH64": AARCH64}
# The greatest page size that a kernel may be configured with. No two segments may share a page.
MAX_PAGE_SIZE = {X86_64: 1 << 12, AARCH64: 1 << 16}
GNU_PROPERTY_AARCH64_FEATURE_1_AND = 0xC0000000
FEATURE_1_AND = "GNU_PROPERTY_X86_FEATURE_1_AND", GNU_PROPERTY_AARCH64_FEATURE_1_AND
STT_GNU_IFUNC = "STT_LOOS"  # as pyelftools calls this number


def read(data):
    """The image of a file with these bytes."""
    file = ELFFile(io.BytesIO(data))
    is_linked = file["e_type"] in ("ET_EXEC", "ET_DYN")
    is_known = is_linked and file.elfclass == 64 and file.little_endian
    mappings = [_mapping(segment) for segment in file.iter_segments("PT_LOAD")]
    image = Image(MACHINES.get(file["e_machine"]) if is_known else None, mappings)
    _reject_separate_debug_file(file)
    _reject_shared_pages(image)
    _reject_gnu_properties(file)
    _reject_text_relocations(file)
    # Symbols of other sections, such as those of debug information, have no address.
    loaded = {
        index
        for index, section in enumerate(file.iter_sections())
        if section["sh_flags"] & SH_FLAGS.SHF_ALLOC
    }
    for section in file.iter_sections("SHT_SYMTAB"):
        _read_symbols(image, section, loaded)
    for section in file.iter_sections("SHT_DYNSYM"):
        _read_dynamic_symbols(image, section, loaded)
    # The loader makes these bytes read-only, so a dispatcher cannot write to them.
    for relro in file.iter_segments("PT_GNU_RELRO"):
        image.dispatch_bytes -= {*range(relro["p_vaddr"], relro["p_vaddr"] + relro["p_memsz"])}
    return image


def _mapping(segment):
    """The mapping that the loader makes of a PT_LOAD segment."""
    is_writable = bool(segment["p_flags"] & P_FLAGS.PF_W)
    is_executable = bool(segment["p_flags"] & P_FLAGS.PF_X)
    return Mapping(
        segment["p_vaddr"], segment["p_memsz"], segment.data(), is_writable, is_executable
    )


def _reject_separate_debug_file(file):
    """In such a file the code is only reserved space."""
    for section in file.iter_sections("SHT_NOBITS"):
        if section["sh_flags"] & SH_FLAGS.SHF_EXECINSTR:
            raise ValueError("a separate debug file: prove the file that runs")


def _reject_shared_pages(image):
    """Segments that share a page also share its protection."""
    page_size = MAX_PAGE_SIZE[image.machine]
    for segment, following in zip(image.mappings, image.mappings[1:]):
        last_page = (segment.address + segment.size - 1) // page_size
        if last_page >= following.address // page_size:
            raise ValueError(
                f"two segments share a page of {page_size} bytes: "
                f"link with -z max-page-size={page_size}"
            )


def _reject_gnu_properties(file):
    """A system may reject code without endbr64 or bti in a file that is marked so."""
    for section in file.iter_sections("SHT_NOTE"):
        for note in section.iter_notes():
            is_property_note = note["n_type"] == "NT_GNU_PROPERTY_TYPE_0"
            for gnu_property in note["n_desc"] if is_property_note else ():
                has_features = gnu_property["pr_data"] not in (0, bytes(4))
                if gnu_property["pr_type"] in FEATURE_1_AND and has_features:
                    raise ValueError(
                        "the file is marked for IBT, SHSTK, BTI or GCS, which this code does not "
                        "support: link without -z ibt, -z shstk, -z force-bti"
                    )


def _reject_text_relocations(file):
    """With them the loader writes to code."""
    for dynamic in file.iter_segments("PT_DYNAMIC"):
        for tag in dynamic.iter_tags():
            kind = tag.entry.d_tag
            is_in_flags = kind == "DT_FLAGS" and tag["d_val"] & ENUM_DT_FLAGS["DF_TEXTREL"]
            if kind == "DT_TEXTREL" or is_in_flags:
                raise ValueError("text relocations (DT_TEXTREL): compile all code with -fPIC")


def _read_symbols(image, section, loaded):
    """Adds what SHT_SYMTAB defines."""
    for symbol in section.iter_symbols():
        # GNU ld adds a version, or a number that makes a name unique.
        name = symbol.name.replace("@", ".").partition(".")[0]
        if _has_address(symbol, name, loaded):
            image.add_symbol(name, symbol["st_value"], symbol["st_size"])


def _read_dynamic_symbols(image, section, loaded):
    """Adds what SHT_DYNSYM defines for other files, and what it takes from them."""
    for symbol in section.iter_symbols():
        if _has_address(symbol, symbol.name, loaded) and symbol["st_info"]["bind"] != "STB_LOCAL":
            image.add_exported(symbol.name, symbol["st_value"])
        elif symbol["st_shndx"] == "SHN_UNDEF":
            image.add_imported(symbol.name)


def _has_address(symbol, name, loaded):
    """Whether a symbol is defined at an address of the file."""
    kind, index = symbol["st_info"]["type"], symbol["st_shndx"]
    if kind in ("STT_SECTION", "STT_FILE", "STT_TLS") or index == "SHN_UNDEF" or not name:
        return False
    if name.startswith(PREFIX) and (kind == STT_GNU_IFUNC or index == "SHN_ABS"):
        raise ValueError(f"{name} is chosen by the loader (IFUNC), or absolute (SHN_ABS)")
    return index in loaded
