/ Opens its own file for reading and for writing, removes it, and ends with a line of the terminal.
	sys	open; name; 0
	sys	close			/ r0 still has its number
	sys	open; name; 1
	sys	creat; name; 755
	sys	unlink; name
	sys	open; tty; 0
	sys	read; line; 100.
	sys	exit
	.data
name:	</line\0>
tty:	</dev/tty8\0>
	.bss
line:	.=.+100.
