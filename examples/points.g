// A struct is passed and copied whole; the distance of two points on a grid is the status.
struct point { int x; long int y; };

static int length (int d)
{
  if (d < 0) goto negative; else goto positive;
negative:
  d = -d;
positive:
  return d;
}

static int distance (struct point a, struct point b)
{
  int dx;
  int dy;
  long int d;
  dx = a.x - b.x;
  dx = length (dx);
  d = a.y - b.y;
  dy = (int) d;
  dy = length (dy);
  dx = dx + dy;
  return dx;
}

int main ()
{
  struct point origin;
  struct point p;
  int d;
  origin.x = 0;
  origin.y = 0l;
  p = origin;
  p.x = 3;
  p.y = -4l;
  d = distance (origin, p);
  return d;
}
