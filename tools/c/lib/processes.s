/ fork(II), wait(II), exec(II) and pipe(II).
	.globl	_fork, _wait, _execv, _execl, _pipe
_fork:
	sys	fork
	br	1f			/ the child comes here, with its parent's number
	jes	cerror
	rts	pc
1:
	clr	r0
	rts	pc

/ wait(status): the number of the child; its status goes there, where the address isn't 0.
_wait:
	sys	wait
	jes	cerror
	tst	2(sp)
	beq	1f
	mov	r1,*2(sp)
1:
	rts	pc

/ execl(name, argument, .., 0) and execv(name, arguments) come back only where they are refused.
_execl:
	mov	sp,r0
	add	$4,r0
	br	1f
_execv:
	mov	4(sp),r0
1:
	mov	r0,indir.call+4
	mov	2(sp),indir.call+2
	mov	$104413,indir.call	/ sys exec
	sys	indir; indir.call
	jmp	cerror

/ pipe(ends): the first is for reading, the second for writing.
_pipe:
	sys	pipe
	jes	cerror
	mov	r0,*2(sp)
	mov	2(sp),r0
	mov	r1,2(r0)
	clr	r0
	rts	pc
