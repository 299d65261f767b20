/ Numbers that are no calls here. After each stand four instructions: what the number takes as arguments isn't done.
	sys	open; tty; 2
	sys	signal; 12.; caught
	clr	r5
	sys	63.
	inc	r5; inc	r5; inc	r5; inc	r5
	jsr	pc,tell
	sys	26.
	inc	r5; inc	r5; inc	r5; inc	r5
	jsr	pc,tell
	sys	44.
	inc	r5; inc	r5; inc	r5; inc	r5
	jsr	pc,tell
	sys	exit
tell:					/ writes how many were done
	add	$'0,r5
	movb	r5,told
	clr	r0
	sys	write; told; 2
	clr	r5
	rts	pc
caught:
	mov	r0,-(sp)
	sys	signal; 12.; caught
	mov	(sp)+,r0
	rti
tty:	</dev/tty8\0>
told:	< \n>
