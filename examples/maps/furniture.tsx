<?xml version="1.0" encoding="UTF-8"?>
<tileset version="1.8" tiledversion="1.8.2" name="furniture" tilewidth="16" tileheight="16" tilecount="4" columns="4">
 <image source="furniture.png" width="64" height="16"/>
</tileset>
