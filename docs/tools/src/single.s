/ As the first program of a pack may begin: it asks for the switches, and gives one user a shell where they are 173030.
	sys	open; tty; 2
	sys	dup
	clr	r0
	sys	dup
	sys	csw
	cmp	r0,$173030
	beq	1f
	mov	$many,r1
	br	2f
1:
	mov	$one,r1
2:
	mov	r1,0f
	clr	r0
	sys	write; 0:0; 9.
	sys	exec; shell; list
	sys	exit
list:	dash; 0
dash:	<-\0>
tty:	</dev/tty8\0>
shell:	</bin/sh\0>
one:	<one user\n>
many:	<everyone\n>
