module: dylan-user

define library division use dylan; use io; end;
define module division use dylan; use format-out; end;
