/ How a program in C begins: exec(II) leaves the number of the arguments at the stack pointer, and their addresses after it.
	.globl	start, _exit, cerror, _errno, __flush, indir.call
start:
	mov	sp,r0
	mov	(r0),-(sp)
	tst	(r0)+
	mov	r0,2(sp)		/ main(argc, argv)
	jsr	pc,_main
	mov	r0,-(sp)
	jsr	pc,_exit

/ exit(status): what is still to be written is written first, where the program has such files.
_exit:
	tst	__flush
	beq	1f
	jsr	pc,*__flush
1:
	mov	2(sp),r0
	sys	exit

/ The end of a call that is refused: errno is the number of the error, and the result is -1.
cerror:
	mov	r0,_errno
	mov	$-1,r0
	mov	r0,r1
	rts	pc

	.bss
_errno:	.=.+2
__flush:	.=.+2				/ what writes the files out
indir.call:	.=.+10			/ a call with arguments, for `sys indir`
