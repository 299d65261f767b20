/ The beginning and the end of a function as pcc makes it: r5 is its frame, and r2, r3 and r4 are kept in it. One word at the
/ stack pointer is free for the first argument of a call.
	.globl	csv, cret
csv:
	mov	r5,r0
	mov	sp,r5
	mov	r4,-(sp)
	mov	r3,-(sp)
	mov	r2,-(sp)
	jsr	pc,(r0)
cret:
	mov	r5,r2
	mov	-(r2),r4
	mov	-(r2),r3
	mov	-(r2),r2
	mov	r5,sp
	mov	(sp)+,r5
	rts	pc
