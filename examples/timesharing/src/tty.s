/ tty -- what login and write share. It is assembled behind each of them.
	.text
	.even

/ ttyn -- X, where the file r0 is the line /dev/ttyX, to r0; C is set where it is none. The name stays at tty
ttyn:
	sys	fstat; status
	bes	3f
	mov	status+2,r1		/ its inode
	movb	$'0,ttyx
1:
	sys	stat; tty; status
	bes	2f
	cmp	status+2,r1
	beq	4f
2:
	incb	ttyx
	cmpb	ttyx,$'9
	blos	1b
	sec
3:
	rts	pc
4:
	movb	ttyx,r0
	clc
	rts	pc

	.data
tty:	</dev/tty>
ttyx:	<0\0>
	.even
	.bss
status:	.=.+36.
