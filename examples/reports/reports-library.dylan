module: dylan-user

define library reports
  use dylan;
  use io;
  use measures, import: {measures => m};
end library reports;

define module reports
  use dylan;
  use format-out;
  use m, prefix: "m-", rename: {passes => passes-made};
end module reports;
