.msa 1
.ent main
L0:
lda $16, 72($31)
lda $0, 2($31)
call_pal 131
lda $16, 105($31)
lda $0, 2($31)
call_pal 131
lda $16, 7($31)
lda $0, 1($31)
call_pal 131
.data 0
