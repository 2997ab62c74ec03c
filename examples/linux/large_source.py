"""A large file in C for a compiler: libraries that are headers alone, of one of Debian's packages, preprocessed."""
import os

import debian
from debian import said

PACKAGE = "libstb-dev"
LIBRARIES = {"stb_rect_pack": "STB_RECT_PACK_IMPLEMENTATION", "stb_truetype": "STB_TRUETYPE_IMPLEMENTATION",
             "stb_image": "STB_IMAGE_IMPLEMENTATION", "stb_image_write": "STB_IMAGE_WRITE_IMPLEMENTATION",
             "stb_image_resize": "STB_IMAGE_RESIZE_IMPLEMENTATION", "stb_ds": "STB_DS_IMPLEMENTATION"}


def path(folder: str) -> str:
    """Where it is; it is made where it isn't there yet."""
    made = f"{folder}/large.i"
    if not os.path.exists(made):
        debian.unpack([PACKAGE], f"{folder}/{PACKAGE}")
        with open(f"{folder}/large.c", "w") as source:
            for name, macro in LIBRARIES.items():
                source.write(f"#define {macro}\n#include <stb/{name}.h>\n")
        said("gcc", "-E", f"-I{folder}/{PACKAGE}/usr/include", "-o", made, f"{folder}/large.c")
    return made
