; TinyRAM V=2.000 M=vn W=32 K=16
; A sudoku of four by four. The primary tape has its 16 cells, row by row, a free one as 0; the auxiliary tape has
; them filled. Answers 0 exactly where each filled cell is a number from 1 to 4, the given cells are kept, and each
; row, column and box has all four numbers.

        mov r1, 0           ; which cell
_cell:  read r2, 1          ; the number
        read r3, 0          ; the given one
        cmpe r3, 0
        cjmp _free
        cmpe r3, r2
        cnjmp _no
_free:  cmpa r2, 4
        cjmp _no
        mov r4, 1
        shl r4, r4, r2      ; a bit for the number
        shr r5, r1, 2       ; the row
        and r6, r1, 3       ; the column
        and r7, r5, 2
        shr r8, r6, 1
        add r7, r7, r8      ; the box
        mull r5, r5, 4
        add r5, r5, 4096
        load.w r8, r5
        add r8, r8, r4
        store.w r5, r8
        mull r6, r6, 4
        add r6, r6, 4112
        load.w r8, r6
        add r8, r8, r4
        store.w r6, r8
        mull r7, r7, 4
        add r7, r7, 4128
        load.w r8, r7
        add r8, r8, r4
        store.w r7, r8
        add r1, r1, 1
        cmpe r1, 16
        cnjmp _cell
        mov r1, 4096
_sum:   load.w r2, r1       ; 2 + 4 + 8 + 16, each once
        cmpe r2, 30
        cnjmp _no
        add r1, r1, 4
        cmpe r1, 4144
        cnjmp _sum
        answer 0
_no:    answer 1
