
	<  panel
	// a comment between attributes, with > and { in it
	title = 'Kommentare "überall"' /* and here: </panel> */ lines={ /* two */ 2 }
	{ ... rest }
	><
	/* in a closing tag */ / panel // done
	>
/* behind the stage */
