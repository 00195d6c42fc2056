# The units of the server have the user obix of the package in place of one that systemd makes at each start. What another unit
# reads of the record's folder it reads as a member of the group.
BEGIN { own = unit == "obix.service" || unit == "obix-compact.service" }
own && /^DynamicUser=yes$/ { print "User=obix\nGroup=obix\nStateDirectoryMode=0750\nUMask=0027"; next }
own && /^User=obix$/ { next }
own && /^# The user and the folder of obix.service\.$/ { next }
unit == "obix-exporter.service" && /^DynamicUser=yes$/ { print; print "SupplementaryGroups=obix"; next }
unit == "obix-exporter.service" && /^(# The record of obix.service|TemporaryFileSystem=|BindReadOnlyPaths=)/ { next }
{ print }
