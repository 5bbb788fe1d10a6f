; TinyRAM V=2.000 M=vn W=32 K=16
; Puts the first word of `answer 0` over the instruction that comes next, whose opcode 23 is not used.

        mov r1, 0xfc000000
        store.w _next, r1
_next:  .raw 0xb8000000, 0
