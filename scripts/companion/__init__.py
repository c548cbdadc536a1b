"""What scripts/rexd is made of, one file for each part. Nothing here is proved; docs/PROCESSES.md says what it has to keep.

options has the words, and companion joins the rest. node is the process rexnode, and messages what peers send it. peers, seals and tls have the ways to
other nodes, elections who leads and when. requests has what clients ask for until it is answered: lines by lines, RESP by resp and calls. looking and
page.html show what a node knows. All of them send and hear frames by links, which are connections of asyncio by TLS, and without it those of plain, which
selector tells what there is to read."""
