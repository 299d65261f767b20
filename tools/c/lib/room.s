/ break(II): brk(end), and sbrk(more), which gives the old end and never takes room back. The program's own end is _end.
	.globl	_brk, _sbrk
_brk:
	mov	2(sp),r0
	jsr	pc,1f
	jes	cerror
	clr	r0
	rts	pc
_sbrk:
	mov	old,r0
	add	2(sp),r0
	bcc	1f
	mov	$12.,r0			/ ENOMEM
	jmp	cerror
1:
	jsr	pc,1f
	jes	cerror
	mov	r1,r0
	rts	pc
1:
	mov	r0,indir.call+2
	mov	r0,-(sp)
	mov	$104421,indir.call	/ sys break
	sys	indir; indir.call
	bes	2f
	mov	old,r1
	mov	(sp)+,old		/ C stays as it is, clear
	rts	pc
2:
	tst	(sp)+
	sec
	rts	pc
	.data
old:	_end
