# Makes the units of several servers, lmtpd@.socket and lmtpd@.service, of those of one: an instance has its own socket
# and stop file, its words are those of /etc/lmtpd.conf, but for BOXES, and then those of /etc/lmtpd/INSTANCE.conf, and
# its mailboxes, where that file doesn't say, those of /etc/lmtpd/INSTANCE.boxes.
s|lmtpd\.socket|lmtpd@%i.socket|g
s|^Description=.*|& (%i)|
s|^ListenStream=.*|&-%i|
s|^RuntimeDirectory=.*|&-%i|
s|^SyslogIdentifier=.*|&@%i|
s|/run/lmtpd/|/run/lmtpd-%i/|g
/^EnvironmentFile=/a\
EnvironmentFile=@PREFIX@/lib/lmtpd/instance.conf\
EnvironmentFile=-/etc/lmtpd/%i.conf\
Environment=INSTANCE=%i
