module: dylan-user

define library sorting use dylan; use io; end;
define module sorting use dylan; use format-out; end;
