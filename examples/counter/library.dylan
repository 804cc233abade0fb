module: dylan-user

define library counter use dylan; use io; end;
define module counter use dylan; use format-out; end;
