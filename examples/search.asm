; TinyRAM V=2.000 M=vn W=32 K=16
; Answers 0 exactly where the word of the auxiliary tape is a proper factor of the primary tape's word: above
; 1, below the word, and without a rest. So some auxiliary tape is accepted exactly where the word is composite.

        read r1, 0        ; the word
        read r2, 1        ; the factor
        cmpa r2, 1
        cnjmp _no
        cmpa r1, r2
        cnjmp _no
        umod r3, r1, r2   ; the rest
        answer r3
_no:    answer 1
