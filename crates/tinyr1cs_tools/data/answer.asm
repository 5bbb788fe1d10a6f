mov r1, 6
mull r2, r1, 7
store.w 64, r2
answer r2
