/ signal(II), and how a function in C is called for a signal.
	.globl	_signal

/ signal(number, action): what was done before. The kernel is given an entry for each number in the place of the function.
_signal:
	mov	r2,-(sp)
	mov	4(sp),r0
	mov	6(sp),r1
	clr	r2
	cmp	r0,$20.
	bhis	1f			/ which is refused
	mov	r0,r2
	asl	r2
	bit	$1,r1
	bne	1f
	tst	r1
	beq	1f
	mov	signal.actions(r2),-(sp)
	mov	r1,signal.actions(r2)
	mov	r2,r1
	mov	(sp)+,r2
	asl	r1
	add	$signal.entries,r1
	br	2f
1:
	mov	signal.actions(r2),r2
2:
	mov	r0,indir.call+2
	mov	r1,indir.call+4
	mov	$104460,indir.call	/ sys signal
	sys	indir; indir.call
	bes	4f
	bit	$1,r0
	bne	3f
	tst	r0
	beq	3f
	mov	r2,r0			/ an entry: its function
3:
	mov	(sp)+,r2
	rts	pc
4:
	mov	(sp)+,r2
	jmp	cerror

/ The number of the signal is told by the entry. The function may make calls, and errno stays.
signal.called:
	mov	r1,-(sp)
	mov	_errno,-(sp)
	mov	$indir.call,r1
	mov	(r1)+,-(sp)
	mov	(r1)+,-(sp)
	mov	(r1)+,-(sp)
	mov	(r1)+,-(sp)
	sub	$signal.entries+4,r0
	asr	r0
	mov	signal.actions(r0),r1
	asr	r0
	mov	r0,-(sp)
	jsr	pc,(r1)
	tst	(sp)+
	mov	$indir.call+10,r1
	mov	(sp)+,-(r1)
	mov	(sp)+,-(r1)
	mov	(sp)+,-(r1)
	mov	(sp)+,-(r1)
	mov	(sp)+,_errno
	mov	(sp)+,r1
	mov	(sp)+,r0
	rti

/ One for each number from 0 on, of four bytes, which pushes r0.
signal.entries:
	jsr	r0,signal.called; jsr	r0,signal.called; jsr	r0,signal.called; jsr	r0,signal.called
	jsr	r0,signal.called; jsr	r0,signal.called; jsr	r0,signal.called; jsr	r0,signal.called
	jsr	r0,signal.called; jsr	r0,signal.called; jsr	r0,signal.called; jsr	r0,signal.called
	jsr	r0,signal.called; jsr	r0,signal.called; jsr	r0,signal.called; jsr	r0,signal.called
	jsr	r0,signal.called; jsr	r0,signal.called; jsr	r0,signal.called; jsr	r0,signal.called

	.bss
signal.actions:	.=.+40.
