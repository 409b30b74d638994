"""Makes the module for WebAssembly of the proved static library sabsim_wasm, and compares it with the program.

`tools/wasm` and `tests/wasm` use this. These scripts, heap.c, the kit's clang and linker, and binaryen aren't proved.
So compare.mjs compares what the module writes with what the program writes, before the module is kept.
"""
