"""Types lines over libskk, to time it beside the program: python libskk.py WORDS USER, with lines of key events as
standard input. WORDS is a dictionary, and USER a user dictionary."""

import ctypes
import ctypes.util
import sys

LIBRARY = ctypes.util.find_library("skk")


def library():
    """The library with the types of what is called of it."""
    skk = ctypes.CDLL(LIBRARY)
    pointer = ctypes.c_void_p
    for name, answer, given in (
        ("skk_init", None, []),
        ("skk_user_dict_new", pointer, [ctypes.c_char_p, ctypes.c_char_p, pointer]),
        ("skk_file_dict_new", pointer, [ctypes.c_char_p, ctypes.c_char_p, pointer]),
        ("skk_context_new", pointer, [ctypes.POINTER(pointer), ctypes.c_int]),
        ("skk_context_process_key_events", ctypes.c_bool, [pointer, ctypes.c_char_p]),
        ("skk_context_poll_output", pointer, [pointer]),
        ("g_free", None, [pointer]),
    ):
        function = getattr(skk, name)
        function.restype, function.argtypes = answer, given
    skk.skk_init()
    return skk


def main():
    words, user = sys.argv[1:]
    skk = library()
    kept = skk.skk_user_dict_new(user.encode(), b"UTF-8", None)
    given = skk.skk_file_dict_new(words.encode(), b"UTF-8", None)
    context = skk.skk_context_new((ctypes.c_void_p * 2)(kept, given), 2)
    for keys in sys.stdin.buffer:
        skk.skk_context_process_key_events(context, keys.strip())
        skk.g_free(skk.skk_context_poll_output(context))


if __name__ == "__main__":
    main()
